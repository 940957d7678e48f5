//! Tests of the answers to questions 5 to 10, by hand, and of how their cases
//! are made.

use std::collections::BTreeSet;

use crate::cases::plan::{Counts, Plan};
use crate::cases::surveys;
use crate::generate::full::{full, Crew, SHAPES};
use crate::generate::random::Random;
use crate::model::answer::{answer, Answer, Refusal};
use crate::model::judge::judge_words;
use crate::model::limits::{MOST_EDGES, MOST_NODES};
use crate::model::sheet::*;
use crate::model::survey::{IN_CATEGORY, REDUNDANT};
use crate::named;
use crate::run::tally::Tally;
use crate::selftest;
use crate::selftest::questions::HAND_WORDS;
use crate::selftest::repeatable::{repeatable, NONE};
use crate::trial::expect::expect;
use crate::trial::request::Request;
use crate::trial::scope::Scope;

pub fn run(tally: &mut Tally) {
    by_hand(tally);
    outputs(tally);
    selftest::named::run(tally, "surveys", &named::surveys::all(), Plan::before_surveys);
    full_sheets(tally);
    repeatable_surveys(tally);
    scopes(tally);
}

fn list(written: &[u32]) -> Result<Answer, Refusal> {
    Ok(Answer { count: written.len() as u32, written: written.to_vec(), ..Answer::default() })
}

fn refused(number: u32) -> Result<Answer, Refusal> {
    Err(Refusal { number, sheet: 0, row: 0 })
}

/// Persons 1 and 2, categories 1, 2, 3, deeds 1/0, 1/1, 2/0, folios 1, 2, 3. At
/// office 1 alone 1 and 2 make a ring (edges 4, 6) and both are in 3 (5, 7).
/// Person 1 is in 1, 2 and 3 (0, 1, 2), person 2 in 3 (3). 1 and 3 grant 1/0 (8,
/// 9), 3 grants 2/0 (10), 1 and 3 ban 1/1 (11, 12). 1/0 applies to 1, 1/1 to 1
/// and 2, 2/0 to 1.
#[rustfmt::skip]
const OWN_WORDS: [u32; 118] = [
    1,2,11,17,6,50,
    1,1,0,3, 1,2,0,3, 2,1,0,3, 2,2,0,1, 2,3,0,3, 3,1,0,3, 3,1,1,3, 3,2,0,3, 4,1,0,3, 4,2,0,3, 4,3,0,2,
    1,0,2,3, 1,0,3,1, 1,0,4,3, 1,1,4,3,
    2,2,3,1, 2,2,4,1, 2,3,2,1, 2,3,4,1,
    3,2,5,3, 3,4,5,3, 3,4,7,3,
    4,2,6,3, 4,4,6,3,
    5,5,8,3, 5,6,8,3, 5,6,9,3, 5,7,8,3,
];

/// Operation, numbers, room, what is expected.
type Hand = (u32, &'static [u32], usize, Result<Answer, Refusal>);

#[rustfmt::skip]
fn hands() -> Vec<Hand> {
    vec![
        (5, &[1, 1], 1, list(&[1])),
        (5, &[1, 2], 1, list(&[1])),
        (5, &[1, 3], 2, list(&[1, 2])),
        (5, &[1, 3], 1, refused(25)),
        (5, &[2, 2], 9, refused(24)),
        (5, &[1, 0], 0, refused(24)),
        (5, &[3, 1], 0, refused(20)),
        (6, &[1, 1, 1], 2, list(&[1, 2])),
        (6, &[1, 1, 2], 0, list(&[])),
        (6, &[1, 2, 1], 9, list(&[1, 2])),
        (6, &[1, 3, 9], 9, refused(22)),
        (6, &[1, 1, 3], 9, refused(23)),
        (6, &[2, 1, 3], 0, list(&[])),
        (7, &[1], 1, list(&[2])),
        (7, &[2], 2, list(&[2, 3])),
        (7, &[2], 1, refused(25)),
        (7, &[0], 1, refused(20)),
        (8, &[1], 3, list(&[1, 1, 1])),
        (8, &[2], 2, refused(25)),
        (9, &[1, 1, 2], 2, list(&[1, 1])),
        (9, &[2, 2, 1], 3, list(&[1, 1])),
        (9, &[2, 2, 1], 1, refused(25)),
        (9, &[1, 2, 2], 1, refused(31)),
        (9, &[1, 9, 2], 1, refused(22)),
        (9, &[1, 2, 9], 1, refused(22)),
        (9, &[1, 9, 9], 1, refused(22)),
        // There is a ban row: of person 1's three, 3 has 1 and 2 in it and is in neither.
        (10, &[1], 9, list(&[0, 1, 5, 7, 8, 12])),
        (10, &[1], 5, refused(25)),
        (10, &[2], 0, list(&[])),
        (10, &[u32::MAX], 0, refused(20)),
    ]
}

/// The sheet of questions 1 to 4 by hand: 5 in 6 and 7, both in 8.
#[rustfmt::skip]
fn more_hands() -> Vec<Hand> {
    vec![
        (5, &[1, 8], 1, list(&[5])),
        (6, &[2, 9, 3], 1, list(&[5])),
        (7, &[1], 0, list(&[])),
        (8, &[1], 3, list(&[5, 9, 3])),
        (8, &[2], 3, refused(26)),
        (8, &[2], 0, refused(26)),
        (9, &[1, 9, 9], 3, refused(31)),
        // 8 bans 9/0 as 6 does, which is contained in it.
        (10, &[1], 1, list(&[9])),
        (10, &[2], 0, list(&[])),
    ]
}

fn by_hand(tally: &mut Tally) {
    tally.test("the survey's sheet by hand is valid", judge_words(&OWN_WORDS).number == 0);
    let own = hands().into_iter().map(|hand| (hand, &OWN_WORDS[..]));
    let more = more_hands().into_iter().map(|hand| (hand, &HAND_WORDS[..]));
    for ((operation, numbers, room, says), words) in own.chain(more) {
        let given = answer(operation, numbers, words, &[], room);
        let size = words.len();
        let name = format!("question {operation} by hand: {numbers:?}, room {room}, {size} words");
        tally.test(&name, given == says);
    }
    let mut bad = OWN_WORDS;
    bad[117] = 0;
    for operation in IN_CATEGORY..=REDUNDANT {
        let given = answer(operation, &[9, 9, 9], &bad, &[], 0);
        let says = Err(Refusal { number: 15, sheet: 1, row: 16 });
        tally.test(&format!("question {operation} of a bad last edge"), given == says);
    }
}

fn outputs(tally: &mut Tally) {
    let request = |operation: u32, room: usize| Request {
        operation,
        numbers: [1, 3, 77, 77, 77, 77],
        first: bytes_of(&OWN_WORDS),
        second: vec![1, 2, 3],
        out_len: room,
        fill: 70,
    };
    let long = expect(&request(5, 4));
    tally.test("a list and the fill", long.output == [1, 2, 70, 70]);
    tally.test("a list's reply", long.reply == [0, 0, 0, 0, 2, 0, 0, 4]);
    let triple = expect(&request(8, 4));
    tally.test("a triple and the fill", triple.output == [1, 1, 1, 70]);
    tally.test("a triple's reply", triple.reply == [0, 0, 0, 0, 3, 0, 0, 4]);
    let short = expect(&request(5, 1));
    tally.test("a list too long leaves the fill", short.output == [70]);
    tally.test("a list too long, the reply", short.reply == [25, 0, 0, 0, 0, 0, 0, 1]);
}

fn full_sheets(tally: &mut Tally) {
    for shape in SHAPES {
        let crew = Crew { persons: 3, deeds: 4, folios: 3 };
        let sheet = full(&mut Random::for_case(3, 0), shape, crew);
        let counts = (sheet.nodes.len(), sheet.edges.len());
        tally.test(&format!("{shape:?} is full"), counts == (MOST_NODES, MOST_EDGES));
    }
    let turns: BTreeSet<String> = (0..24)
        .map(|turn| {
            let (name, inquiry) = surveys::on_full(&mut Random::for_case(4, 0), turn);
            let words = words_of(&inquiry.sheet);
            let valid = judge_words(&words).number == 0 && is_full(&words);
            tally.test(&format!("{name}: valid and full"), valid);
            name
        })
        .collect();
    tally.test("every question on every full shape", turns.len() == 24);
}

fn repeatable_surveys(tally: &mut Tally) {
    repeatable(tally, "survey", Plan::before_lookups, |surveys| Counts { surveys, ..NONE });
    let plan = Plan::new(5, Counts { surveys: 6, ..NONE });
    let asked = |back: usize| plan.case(plan.before_lookups() - back).about.operation;
    let all: BTreeSet<u32> = (1..=6).map(asked).collect();
    tally.test("six surveys in turn", all == (IN_CATEGORY..=REDUNDANT).collect());
}

fn scopes(tally: &mut Tally) {
    let mut scope = Scope::default();
    tally.test("no operation named means all", scope.is_all() && scope.has(7));
    let named = scope.name("0,1-4,20").is_some();
    let has: Vec<u32> = (0..30).filter(|&operation| scope.has(operation)).collect();
    tally.test("operations named", named && has == [0, 1, 2, 3, 4, 20]);
    for word in ["", "x", "5-", "10-5", "5,,6", "-5"] {
        tally.test(&format!("no operations: '{word}'"), Scope::default().name(word).is_none());
    }
}
