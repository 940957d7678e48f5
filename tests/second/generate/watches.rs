//! Tables of the duty desk: those that rows lead to, and those that someone could make up,
//! with the minutes at which something is decided, places in any order, names twice, and
//! words in places that are empty.

use crate::generate::duty;
use crate::generate::random::Random;
use crate::generate::traces::*;
use crate::model::sheet::Sheet;
use crate::model::trace::{TraceRow, END, START, TRACE_WIDTH};
use crate::model::watch::{step, Emergency, Watch, PLACES};
use crate::trial::lending::Lending;

/// What a case is, and their shares out of 100.
pub const MANNERS: [(&str, usize); 9] = [
    ("table: after rows", 22),
    ("table: full after rows", 8),
    ("table: made up", 36),
    ("table: made up and full", 10),
    ("table: a name twice", 9),
    ("table: a wrong row", 9),
    ("table: a lower minute", 3),
    ("table: one office", 1),
    ("table: bad sheet", 2),
];

pub fn any(random: &mut Random) -> (&'static str, Lending) {
    let manner = random.manner(&MANNERS);
    let (sheet, timeout) = (duty::any(random), any_timeout(random));
    let names = Names::of(random, &sheet);
    let (watch, timeout) = table(random, manner, &sheet, (&names, timeout));
    let mut row = row(random, &names, &watch, timeout).words().to_vec();
    let full = manner == "table: made up and full";
    if full && random.one_in(2) {
        let minute = watch.last.saturating_add(random.below(2) as u32);
        row = start(minute, 77_777).words().to_vec();
    }
    if manner == "table: a lower minute" || (full && random.one_in(8)) {
        row[0] = watch.last.saturating_sub(random.between(1, 3) as u32);
    }
    if manner == "table: a wrong row" || random.one_in(if full { 6 } else { 25 }) {
        spoil(random, &mut row);
    }
    let sheet = match manner {
        "table: one office" => duty::of_one_office(random).words(),
        "table: bad sheet" => {
            let spoiled = random.one_in(4);
            duty::bad(random, spoiled)
        }
        _ => sheet.words(),
    };
    (manner, Lending { watch, sheet, timeout, row })
}

fn table(
    random: &mut Random,
    manner: &str,
    sheet: &Sheet,
    (names, timeout): (&Names, u32),
) -> (Watch, u32) {
    match manner {
        "table: after rows" => {
            let count = random.below(14);
            let rows = rows(random, names, timeout, count);
            (after(sheet, timeout, &rows), timeout)
        }
        "table: full after rows" => {
            let how = random.below(CROWDS.len());
            let (timeout, rows) = crowd(random, names, how);
            (after(sheet, timeout, &rows[..random.between(30, rows.len())]), timeout)
        }
        "table: made up and full" => {
            let timeout = if random.one_in(4) { timeout } else { timeout.max(4) };
            let used = PLACES - usize::from(random.one_in(3));
            let mut watch = made_up(random, names, timeout, used);
            hold_all(random, &mut watch, timeout);
            (watch, timeout)
        }
        _ => {
            let used = random.pick(&[0, 1, 1, 2, 2, 3, 5, 9, 31]);
            let mut watch = made_up(random, names, timeout, used);
            let refused = matches!(manner, "table: one office" | "table: bad sheet");
            let seldom = if refused { 2 } else { 30 };
            if manner == "table: a name twice" || random.one_in(seldom) {
                name_twice(random, &mut watch, names.folios[0]);
            }
            (watch, timeout)
        }
    }
}

/// As far as the rows are taken.
fn after(sheet: &Sheet, timeout: u32, rows: &[TraceRow]) -> Watch {
    let words = sheet.words();
    rows.iter().fold(Watch::default(), |watch, row| step(&watch, &words, timeout, &row.words()).1)
}

/// So many places are used, each of a folio of its own.
fn made_up(random: &mut Random, names: &Names, timeout: u32, used: usize) -> Watch {
    let last = first_minute(random, timeout);
    let mut folios = names.folios.clone();
    folios.sort_unstable();
    folios.dedup();
    random.shuffle(&mut folios);
    folios.extend((1_000..).filter(|it| !names.folios.contains(it)).take(PLACES));
    let mut watch = Watch { last, ..Watch::default() };
    let alike = random.one_in(3);
    for (place, &folio) in watch.places.iter_mut().zip(&folios[..used]) {
        *place = emergency(random, folio, last, timeout);
        if alike && random.one_in(2) {
            (place.latest, place.earlier) = (last, last);
        }
    }
    let junk = random.one_in(2);
    for place in watch.places.iter_mut().skip(used).filter(|_| junk) {
        let folio = random.pick(&folios);
        *place = Emergency { mark: 0, ..emergency(random, folio, last, timeout) };
    }
    match random.one_in(3) {
        true => random.shuffle(&mut watch.places[..used.max(1)]),
        false => random.shuffle(&mut watch.places),
    }
    watch
}

/// Every used place is held a little longer, but for one now and then, which is in its last
/// minute or has just expired.
fn hold_all(random: &mut Random, watch: &mut Watch, timeout: u32) {
    let last = watch.last;
    let most = random.pick(&[1, 2, 4]);
    for place in watch.places.iter_mut().filter(|place| place.mark != 0) {
        place.latest = last.saturating_sub(1).saturating_add(random.below(most) as u32);
    }
    if random.one_in(2) {
        let at = random.below(PLACES);
        let expiry = last.saturating_add(random.below(3) as u32);
        watch.places[at].latest = expiry.saturating_sub(timeout);
    }
}

/// A mark other than 1 in one of six.
fn emergency(random: &mut Random, folio: u32, last: u32, timeout: u32) -> Emergency {
    let mark = if random.one_in(6) { random.odd_word().max(1) } else { 1 };
    let latest = near(random, last, timeout);
    let earlier = match random.below(3) {
        0 => latest,
        1 => latest.saturating_sub(random.between(1, 3) as u32),
        _ => near(random, last, timeout),
    };
    Emergency { mark, folio, latest, earlier }
}

/// A minute before the last row's, near that at which what started then has expired, or
/// above the last row's.
fn near(random: &mut Random, last: u32, timeout: u32) -> u32 {
    match random.below(16) {
        0..=4 => last.saturating_sub(random.below(3) as u32),
        5..=9 => last.saturating_sub(timeout).saturating_add(random.below(4) as u32),
        10..=12 => last.saturating_add(random.between(1, 3) as u32),
        13 => random.pick(&[0, u32::MAX]),
        14 => last.saturating_sub(random.between(1, 40) as u32),
        _ => random.odd_word(),
    }
}

/// A folio in two used places, wherever they are.
fn name_twice(random: &mut Random, watch: &mut Watch, folio: u32) {
    let one = random.below(PLACES);
    let other = (one + random.between(1, PLACES - 1)) % PLACES;
    for at in [one, other] {
        let place = &mut watch.places[at];
        (place.mark, place.folio) = (place.mark.max(1), folio);
    }
}

/// About a folio that the table names in most cases, at its last minute, a little later, or
/// where something expires.
fn row(random: &mut Random, names: &Names, watch: &Watch, timeout: u32) -> TraceRow {
    let used: Vec<Emergency> = watch.used().copied().collect();
    let own = (!used.is_empty() && !random.one_in(3)).then(|| random.pick(&used));
    let folio = own.map_or_else(|| random.pick(&names.folios), |place| place.folio);
    let about = own.map_or(watch.last, |place| random.pick(&[place.latest, place.earlier]));
    let drawn = match random.below(8) {
        0..=2 => u64::from(watch.last) + random.below(2) as u64,
        3 => u64::from(about) + random.below(3) as u64,
        4..=6 => (u64::from(about) + u64::from(timeout) + random.below(3) as u64).saturating_sub(1),
        _ => u64::from(watch.last) + random.below(9) as u64,
    };
    let minute = u32::try_from(drawn).unwrap_or(u32::MAX).max(watch.last);
    match random.below(10) {
        0..=3 => start(minute, folio),
        4 => end(minute, folio),
        _ => names.question(random, minute, folio),
    }
}

/// More or fewer words than five, an unknown kind, a spare word, or a minute that is lower
/// as well as one of these.
fn spoil(random: &mut Random, row: &mut Vec<u32>) {
    if random.one_in(3) {
        row[0] = row[0].saturating_sub(random.between(1, 9) as u32);
    }
    match random.below(5) {
        0 | 1 => {
            let length = random.pick(&[0, 1, 4, TRACE_WIDTH + 1, 2 * TRACE_WIDTH]);
            row.resize(length, 0);
        }
        2 => row[1] = random.pick(&[0, 4, 5, 257, 1 << 31, u32::MAX]),
        _ => {
            row[1] = random.pick(&[START, END]);
            row[3 + random.below(2)] = random.odd_word().max(1);
        }
    }
}
