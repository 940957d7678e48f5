//! Tests of joining and taking out, by hand and row by row, of how their cases
//! are made, and that they tell each wrong version from the right one.

use crate::cases::joins::{joined_pair, FULL, LIMITS};
use crate::cases::plan::{Case, Counts, Plan};
use crate::generate::random::Random;
use crate::generate::unions::{self, UNIONS};
use crate::misread;
use crate::model::answer::{Answer, Refusal};
use crate::model::contents::Contents;
use crate::model::join::{join, union, JOINT_OFFICES};
use crate::model::judge::judge_words;
use crate::model::sheet::*;
use crate::model::take_out::take_out;
use crate::named;
use crate::named::sister::*;
use crate::run::tally::Tally;
use crate::selftest;
use crate::selftest::misread::told_apart;
use crate::selftest::questions::{HAND_WORDS, JOINT_WORDS};
use crate::selftest::repeatable::{repeatable, NONE};
use crate::trial::expect::expect;
use crate::trial::operation::{JOIN, TAKE_OUT};
use crate::trial::request::{Request, MOST_OUTPUT};

/// A fifth of the random cases of a run, and how many of them have to show each
/// mistake.
const CASES: usize = 2_000;
const ENOUGH: usize = 10;

pub fn run(tally: &mut Tally) {
    joined_by_hand(tally);
    taken_out_by_hand(tally);
    outputs(tally);
    row_by_row(tally);
    made_unions(tally);
    selftest::named::run(tally, "joins", &named::joins::all(), Plan::before_joins);
    repeatable_joins(tally);
    distinguished(tally);
}

fn refused(number: u32, sheet: u32) -> Result<Answer, Refusal> {
    Err(Refusal { number, sheet, row: 0 })
}

/// Person 5 in category 6; category 6 in 7.
#[rustfmt::skip]
const LEFT: [u32; 26] = [1,1,3,2,6,18, 1,5,0,1, 2,6,0,1, 2,7,0,1, 1,0,1,1, 2,1,2,1];

/// Persons 4 and 5, category 6; 5 in 6.
#[rustfmt::skip]
const RIGHT: [u32; 22] = [1,1,3,1,6,18, 1,4,0,1, 1,5,0,1, 2,6,0,1, 1,1,2,1];

/// Persons 4 and 5, categories 6 and 7: 5 in 6 by both, 6 in 7 by the left.
#[rustfmt::skip]
const TOGETHER: [u32; 30] = [
    1,2,4,2,6,22, 1,4,0,2, 1,5,0,3, 2,6,0,3, 2,7,0,1, 1,1,2,3, 2,2,3,1,
];

fn joined_by_hand(tally: &mut Tally) {
    let joined = |value: u32, extras: [u32; 2], words: &[u32]| {
        Ok(Answer { value, count: words.len() as u32, extras, written: words.to_vec() })
    };
    let (a, b) = (sheet_a().words(), sheet_b().words());
    let ships = joined(8, [4, 2], &JOINT_WORDS);
    tally.test("A and B joined", join(&a, &b, 70) == ships);
    tally.test("A and B joined, more room", join(&a, &b, 71) == ships);
    tally.test("A and B, one word short", join(&a, &b, 69) == refused(25, 0));
    tally.test("left and right", join(&LEFT, &RIGHT, 30) == joined(4, [2, 1], &TOGETHER));
    let nothing = [1, 1, 0, 0, 6, 6];
    let empty = joined(0, [0, 0], &[1, 2, 0, 0, 6, 6]);
    tally.test("nothing twice", join(&nothing, &nothing, 6) == empty);
    tally.test("nothing twice, no room", join(&nothing, &nothing, 5) == refused(25, 0));
    tally.test("two offices first", join(&TOGETHER, &LEFT, 99) == refused(28, 1));
    tally.test("two offices second", join(&LEFT, &TOGETHER, 0) == refused(28, 2));
    tally.test("two offices twice", join(&TOGETHER, &JOINT_WORDS, 99) == refused(28, 1));
    tally.test("a bad second before 28", join(&TOGETHER, &[1], 99) == refused(1, 2));
    tally.test("a bad first before all", join(&[], &[1], 99) == refused(1, 1));
}

fn taken_out_by_hand(tally: &mut Tally) {
    let list = |words: &[u32]| {
        Ok(Answer { count: words.len() as u32, written: words.to_vec(), ..Answer::default() })
    };
    let (a, b) = (sheet_a().words(), sheet_b().words());
    tally.test("office 1 of the joint is A", take_out(&JOINT_WORDS, 1, 66) == list(&a));
    tally.test("office 2 of the joint is B", take_out(&JOINT_WORDS, 2, 34) == list(&b));
    tally.test("office 1 of left and right", take_out(&TOGETHER, 1, 26) == list(&LEFT));
    tally.test("office 2 of left and right", take_out(&TOGETHER, 2, 99) == list(&RIGHT));
    tally.test("one word short", take_out(&TOGETHER, 2, 21) == refused(25, 0));
    // Category 6 goes, and with it every row that names it.
    #[rustfmt::skip]
    let second = [
        1,1,6,5,6,30, 1,5,0,1, 2,7,0,1, 2,8,0,1, 3,9,0,1, 3,9,4,1, 4,3,0,1,
        1,0,1,1, 2,1,2,1, 3,2,3,1, 3,2,4,1, 5,4,5,1,
    ];
    tally.test("office 2 of the sheet by hand", take_out(&HAND_WORDS, 2, 50) == list(&second));
    for office in [0, 3, 4, u32::MAX] {
        let name = format!("office {office} of the joint by hand");
        tally.test(&name, take_out(&JOINT_WORDS, office, 0) == refused(20, 0));
    }
    tally.test("office 2 of A", take_out(&a, 2, 99) == refused(20, 0));
    tally.test("office 1 of A", take_out(&a, 1, 99) == list(&a));
    tally.test("a bad sheet before its office", take_out(&a[..5], 9, 0) == refused(1, 1));
}

fn outputs(tally: &mut Tally) {
    let request = |operation: u32, first: &[u32], out_len: usize| Request {
        operation,
        numbers: [2, 77, 77, 77, 77, 77],
        first: bytes_of(first),
        second: bytes_of(&RIGHT),
        out_len,
        fill: 70,
    };
    let joint = expect(&request(JOIN, &LEFT, 32));
    tally.test("a joint and the fill", joint.output == [&TOGETHER[..], &[70, 70]].concat());
    tally.test("a joint's reply", joint.reply == [0, 0, 0, 4, 30, 2, 1, 32]);
    let short = expect(&request(JOIN, &LEFT, 29));
    tally.test("a joint too long leaves the fill", short.output == [70; 29]);
    tally.test("a joint too long, the reply", short.reply == [25, 0, 0, 0, 0, 0, 0, 29]);
    let part = expect(&request(TAKE_OUT, &TOGETHER, 23));
    tally.test("a part and the fill", part.output == [&RIGHT[..], &[70]].concat());
    tally.test("a part's reply", part.reply == [0, 0, 0, 0, 22, 0, 0, 23]);
    let bad = expect(&request(TAKE_OUT, &LEFT, 3));
    tally.test("an office refused, the reply", bad.reply == [20, 0, 0, 0, 0, 0, 0, 3]);
    tally.test("an office refused leaves the fill", bad.output == [70; 3]);
}

/// Every row of a sheet with its ends spelt out: nodes, then edges.
fn spelt(words: &[u32]) -> (Vec<Vec<u32>>, Vec<Vec<u32>>) {
    let nodes = node_rows(words);
    let end = |row: u32| nodes[row as usize][..3].to_vec();
    let edge = |row: &[u32]| [vec![row[0]], end(row[1]), end(row[2]), vec![row[3]]].concat();
    (nodes.iter().map(|row| row.to_vec()).collect(), edge_rows(words).map(edge).collect())
}

/// Each row of the joint stands in an input, marked by those that have it, and
/// each row of an input in the joint: row by row, without the maps.
fn joint_fits(joint: &[Vec<u32>], one: &[Vec<u32>], other: &[Vec<u32>], shared: u32) -> bool {
    let named = |rows: &[Vec<u32>], row: &Vec<u32>| {
        rows.iter().any(|other| other[..other.len() - 1] == row[..row.len() - 1])
    };
    let marked = |row: &Vec<u32>| {
        let mark = match (named(one, row), named(other, row)) {
            (true, true) => 3,
            (false, true) => 2,
            (true, false) => 1,
            (false, false) => 0,
        };
        row[row.len() - 1] == mark
    };
    joint.iter().all(marked)
        && one.iter().chain(other).all(|row| named(joint, row))
        && joint.len() + shared as usize == one.len() + other.len()
}

fn row_by_row(tally: &mut Tally) {
    for number in 0..400 {
        let [first, second] = joined_pair(&mut Random::for_case(13, number));
        let joint = join(&first, &second, MOST_OUTPUT).unwrap_or_default();
        let words = &joint.written;
        let valid = judge_words(words).number == 0 && office_count(words) == JOINT_OFFICES;
        tally.test(&format!("joint {number} is a sheet of two offices"), valid);
        if !valid {
            continue;
        }
        let (one, other, all) = (spelt(&first), spelt(&second), spelt(words));
        let nodes = joint_fits(&all.0, &one.0, &other.0, joint.extras[0]);
        tally.test(
            &format!("joint {number}, the nodes"),
            nodes && joint.value == node_count(words) as u32,
        );
        let edges = joint_fits(&all.1, &one.1, &other.1, joint.extras[1]);
        tally.test(&format!("joint {number}, the edges"), edges);
        for (office, input) in [(1, &first), (2, &second)] {
            let back = take_out(words, office, input.len()).unwrap_or_default().written;
            tally.test(&format!("joint {number}, office {office} taken out"), back == *input);
        }
    }
}

fn made_unions(tally: &mut Tally) {
    for (nodes, edges) in UNIONS {
        for number in 0..6 {
            let random = &mut Random::for_case(17, number);
            let (first, second) = unions::pair(random, nodes, edges);
            let [first, second] = [first, second].map(|side| side.marked(random, 1).words());
            let valid = [&first, &second].map(|words| judge_words(words).number) == [0, 0];
            let joint = union(&Contents::of(&first), &Contents::of(&second));
            let right = joint.nodes.len() == nodes && joint.edges.len() == edges;
            let name = format!("union {number} of {nodes} nodes and {edges} edges");
            tally.test(&name, valid && right);
        }
    }
}

fn repeatable_joins(tally: &mut Tally) {
    repeatable(tally, "join", Plan::before_ways, |joins| Counts { joins, ..NONE });
    let plan = Plan::new(5, Counts { joins: 200, ..NONE });
    let numbers = plan.before_ways() - 200..plan.before_ways();
    round_trips(tally, numbers.map(|number| plan.case(number)).collect());
}

/// Each join of a round trip is followed by the takings out of its own joint.
fn round_trips(tally: &mut Tally, cases: Vec<Case>) {
    let there = |case: &Case| case.about.kind == "join: round trip";
    let trips: Vec<&[Case]> = cases.windows(3).filter(|three| there(&three[0])).collect();
    tally.test("three of ten are a round trip", trips.len() == 20);
    for three in trips {
        let joint = &three[0].expected.output[..three[0].expected.reply[4] as usize];
        let inputs = [&three[0].request.first, &three[0].request.second].map(|it| words_of(it));
        for (leg, input) in three[1..].iter().zip(inputs) {
            let back = leg.expected.output[..leg.expected.reply[4] as usize] == input;
            let same = words_of(&leg.request.first) == joint && leg.about.own_fault.is_none();
            tally.test(&format!("round trip, case {}", leg.about.number), same && back);
        }
    }
}

/// The random cases, and those at the limits and of full sheets.
fn distinguished(tally: &mut Tally) {
    let plan = Plan::new(1, Counts { joins: CASES, ..NONE });
    let first = plan.before_ways() - CASES - FULL - LIMITS;
    let cases: Vec<Case> = (first..plan.before_ways()).map(|number| plan.case(number)).collect();
    told_apart(tally, &cases, misread::joins::all(), ENOUGH);
    told_apart(tally, &cases, misread::takings::WRONG.iter(), ENOUGH);
}
