//! Traces of the duty desk: rows that start, end and ask, at the minutes at which
//! something is decided, and rows that are wrong.

use crate::generate::desk::one;
use crate::generate::random::Random;
use crate::model::sheet::*;
use crate::model::trace::{Desk, TraceRow, END, MOST_HELD, QUESTION, START, TRACE_WIDTH};

/// What the rows of a trace name: the sheet's own, and a few that it does not have.
pub struct Names {
    pub folios: Vec<u32>,
    persons: Vec<u32>,
    deeds: Vec<u32>,
    /// Questions, without a minute, that office 2 answers in another way than office 1.
    telling: Vec<TraceRow>,
}

impl Names {
    pub fn of(random: &mut Random, sheet: &Sheet) -> Names {
        let mut of = |sort: u32, most: usize| {
            let own = sheet.nodes.iter().filter(|row| row[0] == sort);
            let mut numbers: Vec<u32> = own.map(|row| row[1]).collect();
            numbers.dedup();
            random.shuffle(&mut numbers);
            numbers.truncate(most);
            numbers
        };
        let (mut folios, persons, deeds) = (of(FOLIO, 3), of(PERSON, 3), of(DEED, 3));
        let telling = telling(sheet, &folios, &persons, &deeds);
        folios.sort_by_key(|&folio| telling.iter().all(|row| row.folio != folio));
        let strange = random.odd_word();
        folios.extend(random.pick(&[[0, strange], [u32::MAX, 0], [strange, 7]]));
        Names { folios, persons, deeds, telling }
    }

    pub fn question(&self, random: &mut Random, minute: u32, folio: u32) -> TraceRow {
        let telling: Vec<&TraceRow> = self.telling.iter().filter(|it| it.folio == folio).collect();
        if !telling.is_empty() && !random.one_in(3) {
            return TraceRow { minute, ..*random.pick(&telling) };
        }
        let mut asked = |names: &[u32]| match random.one_in(16) {
            true => random.pick(&[0, 1, u32::MAX]),
            false => one(random, names.iter().copied()),
        };
        let (person, deed) = (asked(&self.persons), asked(&self.deeds));
        TraceRow { minute, kind: QUESTION, folio, person, deed }
    }
}

/// Of a sheet of two offices.
fn telling(sheet: &Sheet, folios: &[u32], persons: &[u32], deeds: &[u32]) -> Vec<TraceRow> {
    let Ok(desk) = Desk::of(&sheet.words(), 0) else { return Vec::new() };
    let mut telling = Vec::new();
    for &folio in folios {
        for &person in persons {
            let asked = |&deed| TraceRow { minute: 0, kind: QUESTION, folio, person, deed };
            telling.extend(deeds.iter().map(asked).filter(|&row| {
                let [first, second] = [1, 2].map(|office| desk.says(office, row));
                second != 0 && second != first
            }));
        }
    }
    telling
}

pub fn start(minute: u32, folio: u32) -> TraceRow {
    TraceRow { minute, kind: START, folio, person: 0, deed: 0 }
}

pub fn end(minute: u32, folio: u32) -> TraceRow {
    TraceRow { kind: END, ..start(minute, folio) }
}

/// Timeouts that are over soon, that never are, and any.
pub fn any_timeout(random: &mut Random) -> u32 {
    match random.below(12) {
        0 => 0,
        1 => 1,
        2 => u32::MAX,
        3 => random.pick(&[u32::MAX - 1, 1 << 31, (1 << 31) - 1]),
        4 => random.odd_word(),
        5 => random.between(20, 600) as u32,
        _ => random.between(2, 9) as u32,
    }
}

/// Near the ends of the range, where a sum would wrap, as well as anywhere.
pub fn first_minute(random: &mut Random, timeout: u32) -> u32 {
    match random.below(10) {
        0..=2 => 0,
        3 => u32::MAX - random.below(12) as u32,
        4 => (u32::MAX - timeout).saturating_add(random.below(3) as u32),
        5 => (u32::MAX - timeout).saturating_sub(random.below(4) as u32),
        6 => random.odd_word(),
        _ => random.between(1, 60) as u32,
    }
}

/// Not below the last row's: as often as not the same or the next, or one at which an
/// earlier start is just held, or no longer.
fn next_minute(random: &mut Random, rows: &[TraceRow], timeout: u32, first: u32) -> u32 {
    let last = rows.last().map_or(first, |row| row.minute);
    let starts: Vec<u32> =
        rows.iter().filter(|row| row.kind == START).map(|row| row.minute).collect();
    let drawn = match random.below(12) {
        0..=3 => u64::from(last),
        4..=6 => u64::from(last) + 1,
        7..=10 if !starts.is_empty() => {
            let expiry = u64::from(random.pick(&starts)) + u64::from(timeout);
            (expiry + random.below(3) as u64).saturating_sub(1)
        }
        _ => u64::from(last) + random.below(8) as u64,
    };
    match u32::try_from(drawn) {
        Ok(minute) if minute >= last => minute,
        _ => last,
    }
}

/// So many rows, most of them about one folio or two.
pub fn rows(random: &mut Random, names: &Names, timeout: u32, count: usize) -> Vec<TraceRow> {
    let first = first_minute(random, timeout);
    let few = random.between(1, names.folios.len().min(2));
    let mut folios = names.folios.clone();
    if random.one_in(3) {
        random.shuffle(&mut folios);
    }
    let mut rows = Vec::new();
    for _ in 0..count {
        let folio = match random.one_in(8) {
            true => random.pick(&folios),
            false => random.pick(&folios[..few]),
        };
        let minute = next_minute(random, &rows, timeout, first);
        rows.push(match random.below(20) {
            0..=7 => start(minute, folio),
            8..=9 => end(minute, folio),
            _ => names.question(random, minute, folio),
        });
    }
    rows
}

/// What happens to one folio, row after row, and when: a start, an end or a question, and
/// the minute after the first start, or after its timeout where it is counted from there.
#[derive(Clone, Copy)]
pub enum At {
    After(u32),
    Timeout(i64),
}

type Story = (&'static str, &'static [(u32, At)]);

pub const STORIES: [Story; 12] = [
    ("one start", &[(1, At::After(0)), (3, At::After(0)), (3, At::After(1))]),
    (
        "expiry",
        &[(1, At::After(0)), (3, At::Timeout(-1)), (3, At::Timeout(0)), (3, At::Timeout(1))],
    ),
    ("again", &[(1, At::After(0)), (1, At::After(2)), (3, At::After(2)), (3, At::After(3))]),
    (
        "again in the same minute",
        &[(1, At::After(0)), (1, At::After(0)), (3, At::After(0)), (3, At::After(1))],
    ),
    (
        "again and again",
        &[
            (1, At::After(0)),
            (1, At::After(1)),
            (1, At::After(2)),
            (3, At::After(2)),
            (3, At::Timeout(1)),
        ],
    ),
    (
        "again at the last",
        &[(1, At::After(0)), (1, At::Timeout(-1)), (3, At::Timeout(-1)), (3, At::Timeout(0))],
    ),
    (
        "again too late",
        &[(1, At::After(0)), (1, At::Timeout(0)), (3, At::Timeout(0)), (3, At::Timeout(1))],
    ),
    (
        "an end",
        &[
            (1, At::After(0)),
            (3, At::After(1)),
            (2, At::After(1)),
            (3, At::After(1)),
            (3, At::After(2)),
        ],
    ),
    (
        "an end after two",
        &[
            (1, At::After(0)),
            (1, At::After(1)),
            (2, At::After(2)),
            (3, At::After(2)),
            (3, At::After(3)),
        ],
    ),
    (
        "an end between",
        &[
            (1, At::After(0)),
            (2, At::After(2)),
            (1, At::After(2)),
            (3, At::After(2)),
            (3, At::After(3)),
        ],
    ),
    (
        "an end at once",
        &[
            (1, At::After(0)),
            (2, At::After(0)),
            (3, At::After(1)),
            (1, At::After(1)),
            (3, At::After(2)),
        ],
    ),
    (
        "an end before",
        &[(2, At::After(0)), (1, At::After(0)), (3, At::After(1)), (3, At::Timeout(0))],
    ),
];

/// A story told of a folio, with rows about another between, which change nothing of it.
/// What would be above the range, or before the row before it, is left out.
pub fn story(random: &mut Random, names: &Names, timeout: u32, which: usize) -> Vec<TraceRow> {
    let (first, folio) = (first_minute(random, timeout), names.folios[0]);
    let other = random.pick(&names.folios[1..]);
    let mut rows: Vec<TraceRow> = Vec::new();
    for (kind, at) in STORIES[which].1 {
        let minute = i64::from(first)
            + match at {
                At::After(minutes) => i64::from(*minutes),
                At::Timeout(minutes) => i64::from(timeout) + minutes,
            };
        let Ok(minute) = u32::try_from(minute) else { continue };
        if rows.last().is_some_and(|row| row.minute > minute) {
            continue;
        }
        rows.extend(random.one_in(3).then(|| start(minute, other)));
        rows.push(match *kind {
            START => start(minute, folio),
            END => end(minute, folio),
            _ => names.question(random, minute, folio),
        });
        rows.extend(random.one_in(5).then(|| end(minute, other)));
    }
    rows
}

/// How a trace goes on when 32 folios are held, and by which number it is then refused.
pub const CROWDS: [(&str, u32); 11] = [
    ("one folio more", 51),
    ("one folio more after an end", 0),
    ("one folio more in the minute in which one expires", 0),
    ("one folio more in the minute before one expires", 51),
    ("a start again, and no folio more", 0),
    ("a start again, and one folio more", 51),
    ("one folio more in the minute in which one would expire but for a start again", 51),
    ("an end of a folio that is not held, and one folio more", 51),
    ("an end and a start again, and one folio more", 51),
    ("a timeout of 0", 0),
    ("all expired, and as many folios more", 0),
];

/// The timeout, and the rows. Each folio has its start in its turn, at minutes so close
/// that none has expired when the last has come.
pub fn crowd(random: &mut Random, names: &Names, how: usize) -> (u32, Vec<TraceRow>) {
    let exact = matches!(how, 2 | 3 | 6 | 10);
    let timeout = match how {
        9 => 0,
        _ if exact => random.between(40, 400) as u32,
        _ => random.pick(&[40, 77, 1_000, 1 << 31, u32::MAX]),
    };
    let first = match exact {
        true => random.pick(&[0, 5, 1 << 31, u32::MAX - 900]),
        false => random.pick(&[0, 1, 300, 1 << 31, u32::MAX - 80, u32::MAX]),
    };
    let mut folios = crowded_folios(random, names);
    // The start again must be the only one that its folio's minute has.
    let spread = if how == 6 { 1 } else { random.pick(&[1, 2, 40]) };
    let mut rows: Vec<TraceRow> = Vec::new();
    for (at, &folio) in folios[..MOST_HELD].iter().enumerate() {
        rows.push(start(first.saturating_add((at / spread) as u32), folio));
    }
    let more = folios.split_off(MOST_HELD);
    let expiry = first.saturating_add(timeout);
    tail(random, how, &mut rows, &more, expiry);
    let minute = rows.last().map_or(0, |row| row.minute);
    for folio in [folios[0], more[0], folios[MOST_HELD - 1]] {
        let minute = minute.saturating_add(random.below(2) as u32);
        rows.push(names.question(random, minute, folio));
    }
    rows[MOST_HELD..].sort_by_key(|row| row.minute);
    (timeout, rows)
}

/// Twice as many as may be held, the names' own among the first.
fn crowded_folios(random: &mut Random, names: &Names) -> Vec<u32> {
    let mut folios = names.folios.clone();
    folios.sort_unstable();
    folios.dedup();
    let base = random.pick(&[100, 1 << 31, u32::MAX - 200]);
    let more = (base..).filter(|folio| !names.folios.contains(folio));
    folios.extend(more.take(2 * MOST_HELD - folios.len()));
    random.shuffle(&mut folios[..MOST_HELD]);
    folios
}

/// What comes after the 32 starts; the first of them expires at `expiry`.
fn tail(random: &mut Random, how: usize, rows: &mut Vec<TraceRow>, more: &[u32], expiry: u32) {
    let last = rows[MOST_HELD - 1].minute;
    let later = last.saturating_add(random.below(2) as u32);
    let (first, some) = (rows[0].folio, rows[random.below(MOST_HELD)].folio);
    match how {
        1 => rows.push(end(later, some)),
        4 | 5 => rows.push(start(later, some)),
        6 => rows.push(start(later.max(rows[0].minute + 1), first)),
        7 => rows.push(end(later, more[1])),
        8 => rows.extend([end(later, some), start(later, some)]),
        _ => {}
    }
    let minute = match how {
        2 | 6 => expiry,
        3 => expiry - 1,
        10 => expiry + 40,
        _ => rows.last().map_or(0, |row| row.minute),
    };
    match how {
        4 => {}
        9 => rows.extend(more.iter().map(|&folio| start(last, folio))),
        10 => rows.extend(more.iter().map(|&folio| start(minute, folio))),
        _ => rows.push(start(minute, more[0])),
    }
}

/// Faults of a row, each with the number by which it is refused.
pub const FAULTS: [(&str, u32); 12] = [
    ("one minute lower", 50),
    ("minute 0", 50),
    ("kind 0", 54),
    ("kind 4", 54),
    ("kind 4294967295", 54),
    ("any unknown kind", 54),
    ("a start's person", 54),
    ("a start's deed", 54),
    ("an end's person", 54),
    ("an end's deed", 54),
    ("cut short", 54),
    ("cut short and a minute lower", 54),
];

pub fn words(rows: &[TraceRow]) -> Vec<u32> {
    rows.iter().flat_map(|row| row.words()).collect()
}

/// The rows up to this one, which gets the fault; and those behind it where it is not cut
/// short. A lower minute needs a row before it that is not of minute 0.
pub fn with_fault(random: &mut Random, rows: &[TraceRow], at: usize, fault: usize) -> Vec<u32> {
    let mut rows = rows.to_vec();
    if matches!(fault, 0 | 1 | 11) {
        rows.iter_mut().for_each(|row| row.minute = row.minute.max(2));
    }
    let before = at.checked_sub(1).map_or(0, |at| rows[at].minute);
    let row = &mut rows[at];
    match fault {
        0 | 11 => row.minute = before.saturating_sub(1),
        1 => row.minute = 0,
        2..=5 => {
            let any = random.pick(&[5, 255, 257, 259, 1 << 31, (1 << 31) + 1, 1 << 16]);
            row.kind = [0, 4, u32::MAX, any][fault - 2];
        }
        6 | 7 => *row = start(row.minute, row.folio),
        8 | 9 => *row = end(row.minute, row.folio),
        _ => {}
    }
    let spare = random.odd_word().max(1);
    match fault {
        6 | 8 => row.person = spare,
        7 | 9 => row.deed = spare,
        _ => {}
    }
    let mut words = words(&rows);
    if fault >= 10 {
        words.truncate(TRACE_WIDTH * at + random.between(1, TRACE_WIDTH - 1));
    }
    words
}
