//! Tests of the duty desk: by hand, of how its cases are made, and that they tell each wrong
//! version from the right one.

use std::collections::BTreeSet;

use crate::cases::plan::{Case, Counts, Plan};
use crate::cases::traces::{LEGS, MANNERS};
use crate::generate::duty;
use crate::generate::random::Random;
use crate::generate::traces::{any_timeout, rows, Names};
use crate::misread::traces::{read, Slip, WRONG};
use crate::model::sheet::*;
use crate::model::trace::*;
use crate::named;
use crate::named::sister::joint_of_a_and_b;
use crate::run::tally::Tally;
use crate::selftest;
use crate::selftest::repeatable::{repeatable, NONE};
use crate::trial::expect::expect;
use crate::trial::operation::{STEPS, TRACE};
use crate::trial::request::Request;

/// A tenth of the random traces of a run, and how many cases of each operation have to show
/// each mistake.
const CASES: usize = 1_000;
const ENOUGH: usize = 5;

pub fn run(tally: &mut Tally) {
    minutes_by_hand(tally);
    held_by_hand(tally);
    replies(tally);
    selftest::named::run(tally, "traces", &named::traces::all(), Plan::before_traces);
    repeatable(tally, "trace", Plan::before_full_sheets, |cases| Counts {
        traces: cases / LEGS,
        ..NONE
    });
    one_by_one(tally);
    made_cases(tally);
}

const LAST: u32 = u32::MAX;

fn happened(rows: &[[u32; 3]]) -> Vec<TraceRow> {
    let row =
        |&[minute, kind, folio]: &[u32; 3]| TraceRow { minute, kind, folio, person: 0, deed: 0 };
    rows.iter().map(row).collect()
}

/// The rows, a timeout, a minute, and which starts of folio 7 hold it then and whether it is
/// open.
type ByHand<'a> = (&'a [[u32; 3]], u32, u32, &'a [u32], bool);

const BY_HAND: [ByHand; 20] = [
    (&[], 10, 0, &[], false),
    (&[[5, 1, 7]], 10, 5, &[5], false),
    (&[[5, 1, 7]], 10, 6, &[5], true),
    (&[[5, 1, 7]], 10, 14, &[5], true),
    (&[[5, 1, 7]], 10, 15, &[], false),
    (&[[5, 1, 8]], 10, 6, &[], false),
    (&[[5, 1, 7], [6, 2, 8]], 10, 6, &[5], true),
    (&[[5, 1, 7], [6, 2, 7]], 10, 6, &[], false),
    (&[[5, 2, 7], [5, 1, 7]], 10, 6, &[5], true),
    (&[[5, 1, 7], [5, 2, 7], [5, 1, 7]], 10, 6, &[5], true),
    (&[[5, 1, 7], [8, 1, 7]], 10, 8, &[5, 8], true),
    (&[[5, 1, 7], [8, 1, 7]], 10, 15, &[8], true),
    (&[[5, 1, 7], [8, 1, 7]], 10, 18, &[], false),
    (&[[5, 1, 7], [8, 2, 7], [8, 1, 7]], 10, 8, &[8], false),
    (&[[5, 1, 7], [15, 1, 7]], 10, 15, &[15], false),
    (&[[5, 1, 7]], 0, 5, &[], false),
    (&[[5, 1, 7]], 1, 5, &[5], false),
    (&[[5, 1, 7]], 1, 6, &[], false),
    (&[[LAST - 1, 1, 7]], 2, LAST, &[LAST - 1], true),
    (&[[1, 1, 7], [3, 3, 7]], LAST, LAST, &[1], true),
];

fn minutes_by_hand(tally: &mut Tally) {
    for (rows, timeout, minute, starts, open) in BY_HAND {
        let all = happened(rows);
        let name = format!("held by hand: {rows:?}, {timeout}, at {minute}");
        tally.test(&name, holding(&all, 7, minute, timeout) == starts);
        tally.test(&format!("open {name}"), is_open(&all, 7, minute, timeout) == open);
    }
}

fn held_by_hand(tally: &mut Tally) {
    let rows = happened(&[[1, 1, 7], [2, 1, 0], [2, 1, 7], [3, 2, 9], [4, 1, 9], [4, 2, 0]]);
    for (minute, timeout, says) in [
        (4, 10, vec![7, 9]),
        (4, 2, vec![9]),
        (4, 3, vec![7, 9]),
        (12, 10, vec![9]),
        (14, 10, vec![]),
        (4, 0, vec![]),
    ] {
        let name = format!("folios held by hand at {minute} with {timeout}");
        tally.test(&name, held(&rows, minute, timeout).into_iter().eq(says));
    }
    let most: Vec<TraceRow> = (0..40).map(|folio| happened(&[[3, 1, folio]])[0]).collect();
    tally.test("40 folios held", held(&most, 4, 2).len() == 40);
}

fn request(operation: u32, timeout: u32, rows: &[u32], out_len: usize) -> Request {
    let (first, second) = (bytes_of(&joint_of_a_and_b().words()), bytes_of(rows));
    let numbers = [timeout, 7, 7, 7, 7, 7];
    Request { operation, numbers, first, second, out_len, fill: 70 }
}

/// Word for word, with the fill.
fn replies(tally: &mut Tally) {
    let rows = [5, 1, 42, 0, 0, 5, 3, 42, 11, 31, 6, 3, 42, 11, 31];
    let bad = [&rows[..], &[5, 3, 42, 11, 31]].concat();
    let mut test = |name: &str, asked: Request, reply: [u32; 8], output: &[u32]| {
        let said = expect(&asked);
        tally.test(&format!("the reply to {name}"), said.reply == reply && said.output == output);
    };
    let (whole, steps) = (
        |rows: &[u32], room| request(TRACE, 9, rows, room),
        |rows: &[u32], room| request(STEPS, 9, rows, room),
    );
    test("a trace", whole(&rows, 3), [0, 0, 0, 0, 2, 0, 0, 3], &[2, 1, 70]);
    test("steps", steps(&rows, 3), [0, 0, 0, 3, 2, 0, 0, 3], &[2, 1, 70]);
    test("a trace without room", whole(&rows, 1), [25, 0, 0, 0, 0, 0, 0, 1], &[70]);
    test("steps without room", steps(&rows, 1), [0, 0, 0, 3, 2, 0, 0, 1], &[2]);
    test("a wrong row", whole(&bad, 3), [50, 0, 0, 0, 0, 0, 0, 3], &[70, 70, 70]);
    test("a wrong step", steps(&bad, 3), [50, 0, 0, 3, 2, 0, 0, 3], &[2, 1, 70]);
    test("no rows", whole(&[], 1), [0, 0, 0, 0, 0, 0, 0, 1], &[70]);
    let mut none = steps(&[], 1);
    none.first.clear();
    test("no step of no sheet", none.clone(), [0, 0, 0, 0, 0, 0, 0, 1], &[70]);
    none.operation = TRACE;
    test("a trace of no sheet", none, [1, 1, 0, 0, 0, 0, 0, 1], &[70]);
}

/// What is held, folio by folio and all at once, after each row of many traces.
fn one_by_one(tally: &mut Tally) {
    let (mut same, mut open) = (true, 0);
    for number in 0..400 {
        let random = &mut Random::for_case(31, number);
        let (sheet, timeout) = (duty::small(random), any_timeout(random));
        let names = Names::of(random, &sheet);
        let all = rows(random, &names, timeout, 12);
        for (at, row) in all.iter().enumerate() {
            let (rows, minute) = (&all[..=at], row.minute);
            let folios: BTreeSet<u32> = rows.iter().map(|row| row.folio).collect();
            let own = |folio: &u32| !holding(rows, *folio, minute, timeout).is_empty();
            same &= held(rows, minute, timeout).into_iter().eq(folios.into_iter().filter(own));
            open += usize::from(is_open(rows, row.folio, minute, timeout));
        }
    }
    tally.test("what is held is what some start holds", same);
    tally.test(&format!("{open} rows of 4800 are of open folios"), open > 800);
}

/// Both legs are of one trace, none misses its aim, and each slip is seen.
fn made_cases(tally: &mut Tally) {
    let plan = Plan::new(1, Counts { traces: CASES, ..NONE });
    let first = plan.before_traces() + named::traces::all().len();
    let all: Vec<Case> =
        (first..plan.before_full_sheets()).map(|number| plan.case(number)).collect();
    let slips = all.iter().filter(|case| case.about.own_fault.is_some()).count();
    tally.test("no trace misses its aim", slips == 0);
    let kinds: BTreeSet<&str> = all.iter().map(|case| case.about.kind).collect();
    for (kind, _) in MANNERS {
        tally.test(&format!("some cases are of the kind {kind}"), kinds.contains(kind));
    }
    let same = all.chunks(LEGS).all(|legs| {
        let of = |case: &Case| {
            let Request { first, second, numbers, out_len, .. } = &case.request;
            (words_of(first), words_of(second), numbers[0], *out_len)
        };
        let operations: Vec<u32> = legs.iter().map(|case| case.request.operation).collect();
        operations == [TRACE, STEPS] && of(&legs[0]) == of(&legs[1])
    });
    tally.test("each trace is put whole and by steps", same);
    let short = |case: &&Case| case.request.second.len() < 4_000;
    told_apart(tally, &all.iter().filter(short).collect::<Vec<_>>());
}

fn told_apart(tally: &mut Tally, cases: &[&Case]) {
    let right = cases.iter().all(|case| read(&case.request, Slip::Right) == case.expected);
    tally.test("a trace without a slip is not told apart", right);
    for (name, slip, operations) in WRONG {
        for &operation in operations {
            let own = cases.iter().filter(|case| case.request.operation == operation);
            let shown = own.filter(|case| read(&case.request, slip) != case.expected).count();
            let name = format!("told apart in operation {operation}: {name} ({shown} cases)");
            tally.test(&name, shown >= ENOUGH);
        }
    }
}
