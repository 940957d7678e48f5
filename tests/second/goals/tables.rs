//! What a row on a lent table must have met, goal by goal.

use std::collections::BTreeMap;

use crate::goals::rooms::chosen;
use crate::model::sheet::office_count;
use crate::model::trace::*;
use crate::model::watch::{Emergency, Watch, PLACES};
use crate::trial::lending::{Lending, Returned};

const TABLES: [&str; 10] = [
    "all places empty",
    "all places used",
    "words in an empty place",
    "an empty place names a used folio",
    "a mark other than 1",
    "folio 0",
    "a place that has expired",
    "a latest minute above the row's",
    "an earlier minute above the latest",
    "a history",
];

const QUESTIONS: [&str; 10] = [
    "open by the latest minute",
    "open by the earlier minute, the latest is the row's",
    "open by the earlier minute, the latest is above the row's",
    "open by an earlier minute above the latest",
    "open in a place of another mark",
    "closed, both minutes are the row's",
    "closed, both minutes are above the row's",
    "closed, its place expires, though its earlier minute would open it",
    "closed, its place expires in this minute",
    "closed, an empty place alone names it",
];

const STARTS: [&str; 12] = [
    "into the first place",
    "into a place between used ones",
    "into the last place",
    "into a place that expires",
    "into an empty place with words",
    "of a folio whose place expires",
    "again, above the latest minute",
    "again, at the latest minute",
    "again, below the latest minute",
    "again, in a place of another mark",
    "again, in a full table",
    "with a timeout of 0",
];

const ENDS: [&str; 5] = [
    "of a named folio",
    "of a folio whose place expires",
    "of a folio that no place names",
    "of a folio in a place of another mark",
    "while another place expires",
];

const REFUSED: [&str; 25] = [
    "59, both places are held",
    "59, one of them has expired",
    "59, both have expired",
    "59, with a mark other than 1",
    "59, folio 0",
    "59, and no row",
    "59, and a row of other than five words",
    "59, and 50 too",
    "59, and an unknown kind or spare word too",
    "59, of another folio than the row's",
    "54, no word",
    "54, four words",
    "54, six words",
    "54, other than five words and a lower minute",
    "54, an unknown kind",
    "54, a spare word",
    "54, and no place free",
    "50, though places have expired",
    "50, and 54 too",
    "50, and no place free",
    "51, all started in other minutes",
    "51, a place in its last minute",
    "51, a latest minute above the row's",
    "50, with words in an empty place",
    "54, with words in an empty place",
];

pub fn needed() -> Vec<String> {
    let mut goals: Vec<String> = (1..=17).map(|it| format!("the sheet's {it}")).collect();
    goals
        .extend(["3 for want of office 2", "3 for want of office 2, and 59 too"].map(String::from));
    goals.extend(["the sheet's own, and 59 too".to_string()]);
    for kind in ["start", "end", "question"] {
        goals.extend(TABLES.map(|goal| format!("{kind}, {goal}")));
    }
    goals.extend(QUESTIONS.map(|goal| format!("question, {goal}")));
    goals.extend(STARTS.map(|goal| format!("start, {goal}")));
    goals.extend(ENDS.map(|goal| format!("end, {goal}")));
    goals.extend(REFUSED.map(|goal| format!("refused, {goal}")));
    goals
}

/// Those that no case met.
pub fn misses(counts: &BTreeMap<String, usize>) -> Vec<String> {
    needed().into_iter().filter(|goal| !counts.contains_key(goal)).collect()
}

/// The goals one case meets, from what is expected of it and whether the table stands for a
/// history.
pub fn met(lending: &Lending, expected: &Returned, stands: bool) -> Vec<String> {
    let [number, sheet, _, _, count] = expected.answer;
    if sheet == 1 {
        return of_sheet(lending, number);
    }
    if number != 0 {
        let all = chosen(&REFUSED, &of_refused(lending), "refused");
        let own = format!("refused, {number}, ");
        return all.into_iter().filter(|goal| goal.starts_with(&own)).collect();
    }
    let row = TraceRow::of(&lending.row).expect("a row that is taken has five words");
    let Lending { watch, timeout, .. } = lending;
    let kind = ["start", "end", "question"][row.kind as usize - 1];
    let mut goals = chosen(&TABLES, &of_table(watch, row, *timeout, stands), kind);
    goals.extend(match row.kind {
        START => chosen(&STARTS, &of_start(watch, &expected.watch, row, *timeout), kind),
        END => chosen(&ENDS, &of_end(watch, row, *timeout), kind),
        _ => {
            let open = count == 2;
            chosen(&QUESTIONS, &of_question(watch, row, *timeout, open), kind)
        }
    });
    goals
}

fn of_sheet(lending: &Lending, number: u32) -> Vec<String> {
    let lacks = number == 3 && office_count(&lending.sheet) == 1;
    let name = match lacks {
        true => "3 for want of office 2".to_string(),
        false => format!("the sheet's {number}"),
    };
    let twice = lending.watch.names_twice();
    let own = if lacks { name.clone() } else { "the sheet's own".to_string() };
    let both = twice.then(|| format!("{own}, and 59 too"));
    [name].into_iter().chain(both).collect()
}

fn is_junk(place: &Emergency) -> bool {
    place.mark == 0 && *place != Emergency::default()
}

fn of_table(watch: &Watch, row: TraceRow, timeout: u32, stands: bool) -> [bool; 10] {
    let some = |holds: &dyn Fn(&Emergency) -> bool| watch.used().any(holds);
    let names = |it: &Emergency| is_junk(it) && some(&|own| own.folio == it.folio);
    [
        watch.used().count() == 0,
        watch.used().count() == PLACES,
        watch.places.iter().any(is_junk),
        watch.places.iter().any(names),
        some(&|it| it.mark != 1),
        some(&|it| it.folio == 0),
        some(&|it| !lasts(it.latest, timeout, row.minute)),
        some(&|it| it.latest > row.minute),
        some(&|it| it.earlier > it.latest),
        stands,
    ]
}

fn of_question(watch: &Watch, row: TraceRow, timeout: u32, open: bool) -> [bool; 10] {
    let minute = row.minute;
    let named = watch.used().find(|it| it.names(row.folio)).copied();
    let own = |holds: &dyn Fn(Emergency) -> bool| named.is_some_and(holds);
    let opens = |start: u32| start < minute && lasts(start, timeout, minute);
    let expires = own(&|it| !lasts(it.latest, timeout, minute));
    let empty = watch.places.iter().any(|it| is_junk(it) && it.folio == row.folio);
    [
        open && own(&|it| opens(it.latest)),
        open && own(&|it| it.latest == minute),
        open && own(&|it| it.latest > minute),
        open && own(&|it| it.earlier > it.latest && opens(it.earlier)),
        open && own(&|it| it.mark != 1),
        !open && own(&|it| it.latest == minute && it.earlier == minute),
        !open && own(&|it| it.latest > minute && it.earlier > minute),
        !open && expires && own(&|it| opens(it.earlier)),
        !open && own(&|it| u64::from(it.latest) + u64::from(timeout) == u64::from(minute)),
        !open && named.is_none() && empty,
    ]
}

fn of_start(before: &Watch, after: &Watch, row: TraceRow, timeout: u32) -> [bool; 12] {
    let (minute, folio) = (row.minute, row.folio);
    let held = |it: &Emergency| it.mark != 0 && lasts(it.latest, timeout, minute);
    let named = before.places.iter().find(|it| it.names(folio));
    let again = named.filter(|it| held(it));
    let at = after.places.iter().position(|it| it.names(folio));
    let fresh = at.filter(|_| again.is_none());
    let into =
        |holds: &dyn Fn(&Emergency) -> bool| fresh.is_some_and(|at| holds(&before.places[at]));
    [
        fresh == Some(0),
        fresh.is_some_and(|at| at > 0 && after.places[at + 1..].iter().any(|it| it.mark != 0)),
        fresh == Some(PLACES - 1),
        into(&|it| it.mark != 0),
        into(&is_junk),
        named.is_some() && again.is_none(),
        again.is_some_and(|it| minute > it.latest),
        again.is_some_and(|it| minute == it.latest),
        again.is_some_and(|it| minute < it.latest),
        again.is_some_and(|it| it.mark != 1),
        again.is_some() && before.places.iter().all(held),
        timeout == 0,
    ]
}

fn of_end(watch: &Watch, row: TraceRow, timeout: u32) -> [bool; 5] {
    let expired = |it: &Emergency| !lasts(it.latest, timeout, row.minute);
    let named = watch.used().find(|it| it.names(row.folio));
    [
        named.is_some_and(|it| !expired(it)),
        named.is_some_and(expired),
        named.is_none(),
        named.is_some_and(|it| it.mark != 1),
        watch.used().any(|it| it.folio != row.folio && expired(it)),
    ]
}

/// Of a row that is refused by the number with which its goal begins.
fn of_refused(lending: &Lending) -> Vec<bool> {
    let Lending { watch, timeout, row: words, .. } = lending;
    let mut whole = words.clone();
    whole.resize(TRACE_WIDTH, 0);
    let row = TraceRow::of(&whole).expect("five words are a row");
    let expired = |it: &Emergency| !lasts(it.latest, *timeout, row.minute);
    let (five, lower) = (words.len() == TRACE_WIDTH, row.minute < watch.last);
    let unknown = !(START..=QUESTION).contains(&row.kind);
    let full = watch.used().count() == PLACES && !watch.used().any(expired);
    let crowded = full && row.kind == START && !watch.used().any(|it| it.names(row.folio));
    let junk = watch.places.iter().any(is_junk);
    let last =
        |it: &Emergency| u64::from(it.latest) + u64::from(*timeout) == u64::from(row.minute) + 1;
    let others = [
        words.is_empty(),
        words.len() == 4,
        words.len() == 6,
        !five && !words.is_empty() && lower,
        five && unknown,
        five && !unknown && !row.is_right(),
        five && crowded,
        watch.used().any(expired),
        !row.is_right(),
        row.is_right() && crowded,
        watch.used().all(|it| it.latest != row.minute),
        watch.used().any(last),
        watch.used().any(|it| it.latest > row.minute),
        junk,
        junk,
    ];
    of_twice(lending, row).into_iter().chain(others).collect()
}

/// The first of them: of a table that names a folio twice.
fn of_twice(lending: &Lending, row: TraceRow) -> [bool; 10] {
    let Lending { watch, timeout, row: words, .. } = lending;
    let named = |it: &Emergency| watch.used().filter(|own| own.folio == it.folio).count();
    let twice: Vec<&Emergency> = watch.used().filter(|it| named(it) > 1).collect();
    let gone = twice.iter().filter(|it| !lasts(it.latest, *timeout, row.minute)).count();
    let five = words.len() == TRACE_WIDTH;
    [
        gone == 0,
        gone > 0 && gone < twice.len(),
        gone == twice.len(),
        twice.iter().any(|it| it.mark != 1),
        twice.iter().any(|it| it.folio == 0),
        words.is_empty(),
        !words.is_empty() && !five,
        five && row.minute < watch.last,
        five && !row.is_right(),
        five && twice.iter().all(|it| it.folio != row.folio),
    ]
}
