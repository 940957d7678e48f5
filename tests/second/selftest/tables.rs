//! Tests of rows on lent tables: by hand, against the history, of how they are made, and
//! that they tell each wrong version from the right one.

use std::collections::{BTreeMap, BTreeSet};

use crate::cases::tables::{history, unlike, TableCase, Tables};
use crate::generate::watches::MANNERS;
use crate::goals::tables::{misses, needed};
use crate::misread::tables::{read, Slip, WRONG};
use crate::model::trace::TraceRow;
use crate::model::watch::{Watch, WATCH_WORDS};
use crate::named;
use crate::named::tables::watch;
use crate::run::tally::Tally;
use crate::trial::conversation::{Awaited, Sent};
use crate::trial::lending::Returned;

/// Half of the tables of a run, and how many of them have to show each mistake.
const CASES: usize = 4_000;
const ENOUGH: usize = 3;

pub fn run(tally: &mut Tally) {
    words(tally);
    histories(tally);
    let tables = Tables::new(5, CASES);
    let all: Vec<TableCase> = (0..tables.len()).map(|number| tables.case(number)).collect();
    named_tables(tally, &all);
    goals(tally);
    made(tally, &all);
    compared(tally, &all);
    told_apart(tally, &all);
}

fn words(tally: &mut Tally) {
    let zero = Watch::default().words();
    tally.test("an empty table is 129 words of 0", zero == [0; WATCH_WORDS]);
    let some = watch(7, &[[1, 2, 3, 4], [5, 6, 7, 8]]);
    let words = some.words();
    tally.test("a table word for word", words[..10] == [7, 1, 2, 3, 4, 5, 6, 7, 8, 0]);
    tally.test("a table of its words", Watch::of(&words) == some && words.len() == WATCH_WORDS);
}

/// What a table stands for: both starts of a place, in the order of their minutes.
fn histories(tally: &mut Tally) {
    let rows = history(&watch(9, &[[1, 7, 5, 3], [0, 7, 1, 1], [1, 8, 4, 4]])).unwrap_or_default();
    let starts: Vec<[u32; 3]> = rows.iter().map(|row| [row.minute, row.kind, row.folio]).collect();
    let says = [[3, 1, 7], [4, 1, 8], [4, 1, 8], [5, 1, 7], [9, 3, 0]];
    tally.test("the history of a table", starts == says);
    for (name, places) in [
        ("twice", [[1, 7, 5, 5], [1, 7, 5, 5]]),
        ("to come", [[1, 7, 10, 5], [0; 4]]),
        ("turned", [[1, 7, 5, 6], [0; 4]]),
    ] {
        tally
            .test(&format!("no history of a table: {name}"), history(&watch(9, &places)).is_none());
    }
}

fn named_tables(tally: &mut Tally, all: &[TableCase]) {
    let named = named::tables::all();
    for case in &all[..named.len()] {
        tally.test(&format!("a table by hand: {}", case.name), case.own_fault.is_none());
    }
    let names: BTreeSet<&str> = named.iter().map(|it| it.name.as_str()).collect();
    tally.test("no two tables by hand share a name", names.len() == named.len());
}

/// Each is another, and one that is not met fails the run.
fn goals(tally: &mut Tally) {
    let all: BTreeSet<String> = needed().into_iter().collect();
    tally.test("102 goals of the tables", all.len() == 102 && needed().len() == 102);
    let mut counts: BTreeMap<String, usize> = all.into_iter().map(|goal| (goal, 1)).collect();
    let failed = |counts: &BTreeMap<String, usize>| misses(counts).len();
    tally.test("every goal of the tables met", failed(&counts) == 0);
    counts.remove("refused, 59, and no row");
    tally.test("a goal of the tables not met", failed(&counts) == 1);
}

fn made(tally: &mut Tally, all: &[TableCase]) {
    let slips = all.iter().filter(|case| case.own_fault.is_some()).count();
    tally.test("every step is right against its history", slips == 0);
    let stand = all.iter().filter(|case| case.stands).count();
    tally.test(&format!("{stand} tables stand for a history"), stand > CASES / 4);
    let kinds: BTreeSet<&str> = all.iter().map(|case| case.kind).collect();
    for (kind, _) in MANNERS {
        tally.test(&format!("some tables are of the kind {kind}"), kinds.contains(kind));
    }
    let (again, other) = (Tables::new(5, CASES), Tables::new(6, CASES));
    let first = named::tables::all().len();
    let sent = |tables: &Tables, at: usize| tables.case(at).lending.sent();
    let same = (first..first + 200).all(|at| sent(&again, at) == all[at].lending.sent());
    tally.test("a table follows from seed and number", same);
    let differ = (first..first + 200).all(|at| sent(&other, at) != all[at].lending.sent());
    tally.test("another seed makes another table each time", differ);
}

/// Every word of a reply is compared, with the driver's and with the history.
fn compared(tally: &mut Tally, all: &[TableCase]) {
    let case = &all[0];
    let words = [&case.expected.answer[..], &case.expected.watch.words()].concat();
    let heard = |words: &[u32]| {
        let bytes: Vec<u8> = words.iter().flat_map(|word| word.to_le_bytes()).collect();
        case.expected.heard(&mut &bytes[..])
    };
    tally.test("the right reply has no difference", heard(&words) == Ok(Vec::new()));
    for at in 0..words.len() {
        let mut wrong = words.clone();
        wrong[at] ^= 1 << (at % 32);
        let seen = heard(&wrong).is_ok_and(|differences| differences.len() == 1);
        tally.test(&format!("word {at} of a reply is compared"), seen);
    }
    tally.test("a reply that is cut short", heard(&words[1..]).is_err());
    let seen = all.iter().filter(|case| {
        let rows = history(&case.lending.watch);
        let moved = Slip::AgainForgetsEarlier;
        let wrong: Returned = read(&case.lending, moved);
        rows.is_some_and(|rows: Vec<TraceRow>| unlike(&case.lending, &wrong, &rows).is_some())
    });
    let seen = seen.count();
    tally.test(&format!("the history tells one start a place apart, {seen} times"), seen > 20);
}

fn told_apart(tally: &mut Tally, all: &[TableCase]) {
    let right = all.iter().all(|case| read(&case.lending, Slip::Right) == case.expected);
    tally.test("a step without a slip is not told apart", right);
    let made = &all[named::tables::all().len()..];
    for (name, slip) in WRONG {
        let shown = made.iter().filter(|case| read(&case.lending, slip) != case.expected).count();
        let name = format!("told apart on lent tables: {name} ({shown} tables)");
        tally.test(&name, shown >= ENOUGH);
    }
}
