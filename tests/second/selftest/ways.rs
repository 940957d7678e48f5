//! Tests of the other ways to questions 1 to 3, by hand, of how their cases are
//! made, and that they tell each wrong version from the right one.

use std::collections::BTreeSet;

use crate::cases::plan::{Case, Counts, Plan};
use crate::misread::ways::WRONG;
use crate::model::limits::{HEADER, MOST_BYTES, WORD};
use crate::model::sheet::bytes_of;
use crate::named;
use crate::run::tally::Tally;
use crate::selftest;
use crate::selftest::misread::told_apart;
use crate::selftest::questions::HAND_WORDS;
use crate::selftest::repeatable::{repeatable, NONE};
use crate::trial::expect::expect;
use crate::trial::operation::{operations, way_of};
use crate::trial::request::{Request, MOST_PAYLOAD};

/// As many random cases as a run has, and how many cases have to show each
/// mistake.
const CASES: usize = 4_200;
const ENOUGH: usize = 4;

/// Operations of this kind.
const KINDS: usize = 6;

pub fn run(tally: &mut Tally) {
    numbering(tally);
    by_hand(tally);
    lengths(tally);
    selftest::named::run(tally, "other ways", &named::ways::all(), Plan::before_ways);
    repeatable_ways(tally);
    distinguished(tally);
}

fn numbering(tally: &mut Tally) {
    tally.test("six operations of other ways", operations() == [14, 15, 16, 21, 22, 23]);
    for operation in 0..40 {
        let own = operations().contains(&operation);
        let back = way_of(operation).map(|(way, question)| way.operation(question));
        tally.test(&format!("way of operation {operation}"), back == own.then_some(operation));
    }
}

fn request(operation: u32, numbers: [u32; 5], more: usize, out_len: usize) -> Request {
    let [a, b, c, d, e] = numbers;
    let mut first = bytes_of(&HAND_WORDS);
    first.resize(first.len() + more, 0);
    let numbers = [a, b, c, d, e, 77];
    Request { operation, numbers, first, second: vec![1, 2, 3], out_len, fill: 70 }
}

/// Operation, numbers, bytes too many, room, and the reply's first seven words.
type Hand = (u32, [u32; 5], usize, usize, [u32; 7]);

#[rustfmt::skip]
const HANDS: [Hand; 20] = [
    (14, [1, 5, 9, 3, 0], 0, 0, [0, 0, 0, 3, 0, 0, 0]),
    (14, [2, 5, 9, 3, 0], 3, 0, [0, 0, 0, 1, 0, 0, 0]),
    (14, [3, 5, 9, 3, 0], 0, 0, [20, 0, 0, 0, 0, 0, 0]),
    (14, [1, 5, 9, 3, 0], 4, 0, [5, 1, 0, 0, 0, 0, 0]),
    (15, [2, 5, 9, 3, 0], 1, 0, [0, 0, 0, 2, 1, 0, 0]),
    (15, [4, 5, 9, 3, 0], 0, 0, [27, 0, 0, 0, 0, 0, 0]),
    (16, [1, 1, 5, 9, 3], 2, 8, [0, 0, 0, 0, 8, 0, 0]),
    (16, [1, 1, 5, 9, 3], 0, 7, [25, 0, 0, 0, 0, 0, 0]),
    (16, [2, 1, 5, 9, 3], 0, 0, [26, 0, 0, 0, 0, 0, 0]),
    (21, [1, 5, 9, 3, 0], 0, 0, [0, 0, 0, 3, 0, 0, 0]),
    (21, [1, 5, 9, 3, 0], 1, 0, [33, 1, 0, 0, 0, 0, 0]),
    (21, [3, 6, 8, 4, 0], 2, 0, [33, 1, 0, 0, 0, 0, 0]),
    (21, [1, 6, 8, 4, 0], 0, 0, [21, 0, 0, 0, 0, 0, 0]),
    (22, [3, 5, 9, 3, 0], 0, 0, [0, 0, 0, 3, 1, 0, 0]),
    (22, [0, 5, 9, 3, 0], 3, 0, [33, 1, 0, 0, 0, 0, 0]),
    (23, [1, 1, 5, 9, 3], 0, 8, [0, 0, 0, 0, 32, 0, 0]),
    (23, [1, 256, 5, 9, 3], 0, 9, [0, 0, 0, 0, 32, 0, 0]),
    (23, [1, 1, 5, 9, 3], 0, 7, [25, 0, 0, 0, 0, 0, 0]),
    (23, [2, 1, 5, 9, 3], 0, 0, [26, 0, 0, 0, 0, 0, 0]),
    (23, [1, 1, 5, 9, 3], 3, 8, [33, 1, 0, 0, 0, 0, 0]),
];

fn by_hand(tally: &mut Tally) {
    for (operation, numbers, more, room, says) in HANDS {
        let given = expect(&request(operation, numbers, more, room));
        let name = format!("operation {operation} by hand: {numbers:?}, {more} bytes more");
        tally.test(&format!("{name}, room for {room}"), given.reply[..7] == says);
        let path: &[u32] = if says[4] < 8 { &[] } else { &[5, 0, 6, 0, 9, 0, 3, 0] };
        let kept = given.output[path.len()..].iter().all(|&word| word == 70);
        tally.test(&format!("{name}, its output"), given.output.starts_with(path) && kept);
    }
}

fn lengths(tally: &mut Tally) {
    let (header, most) = (WORD * HEADER, MOST_BYTES);
    let even = [(0, 1), (header - WORD, 1), (header, 2), (most, 2), (most + WORD, 33)];
    let uneven = [(1, 33), (header - 1, 33), (most - 1, 33), (most + 1, 33)];
    let longest = [(MOST_PAYLOAD - 1, 33), (MOST_PAYLOAD, 33)];
    for operation in 21..=23 {
        for (length, number) in even.into_iter().chain(uneven).chain(longest) {
            let mut asked = request(operation, [1; 5], 0, 2);
            asked.first = vec![0; length];
            let right = expect(&asked).reply == [number, 1, 0, 0, 0, 0, 0, 2];
            tally.test(&format!("operation {operation} on {length} bytes of 0"), right);
        }
    }
}

fn repeatable_ways(tally: &mut Tally) {
    repeatable(tally, "question another way", Plan::before_listings, |ways| Counts {
        ways,
        ..NONE
    });
    let plan = Plan::new(5, Counts { ways: KINDS, ..NONE });
    let asked = |back: usize| plan.case(plan.before_listings() - back).about.operation;
    let all: BTreeSet<u32> = (1..=KINDS).map(asked).collect();
    tally.test("six operations of other ways in turn", all.into_iter().eq(operations()));
}

fn distinguished(tally: &mut Tally) {
    let plan = Plan::new(1, Counts { ways: CASES, ..NONE });
    let cases: Vec<Case> =
        (plan.before_ways()..plan.before_listings()).map(|at| plan.case(at)).collect();
    told_apart(tally, &cases, WRONG.iter(), ENOUGH);
}
