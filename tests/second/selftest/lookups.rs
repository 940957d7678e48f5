//! Tests of the lookup in two sheets, by hand, of how its cases are made, and
//! that they tell each wrong version from the right one.

use crate::cases::plan::{Case, Counts, Plan};
use crate::generate::outline::Outline;
use crate::generate::pairs;
use crate::generate::random::Random;
use crate::misread::lookups::WRONG;
use crate::model::answer::Refusal;
use crate::model::judge::judge_words;
use crate::model::lookup::lookup;
use crate::model::sheet::*;
use crate::named;
use crate::run::tally::Tally;
use crate::selftest;
use crate::selftest::misread::told_apart;
use crate::selftest::questions::HAND_WORDS;
use crate::selftest::repeatable::{repeatable, NONE};
use crate::trial::expect::expect;
use crate::trial::operation::LOOKUP;
use crate::trial::request::Request;

/// As many random cases as a run has, and how many of them have to show each
/// mistake.
const CASES: usize = 2_000;
const ENOUGH: usize = 10;

pub fn run(tally: &mut Tally) {
    by_hand(tally);
    outputs(tally);
    made_pairs(tally);
    selftest::named::run(tally, "lookups", &named::lookups::all(), Plan::before_lookups);
    repeatable_lookups(tally);
    distinguished(tally);
}

/// Deeds 9/0 of office 1, 9/4 of both, 9/5 of office 2; no edges.
#[rustfmt::skip]
const DEEDS: [u32; 18] = [1,2,3,0,6,18, 3,9,0,1, 3,9,4,3, 3,9,5,2];

/// The other sheet's rows: 1,5,0,3, 2,6,0,1, 2,7,0,3, 2,8,0,3, 3,9,0,3, 3,9,4,3,
/// 4,3,0,3.
#[rustfmt::skip]
const FOUND: [([u32; 3], Row, Row); 6] = [
    ([1, 5, 0], [1, 5, 0, 3], [1, 5, 0, 3]),
    ([2, 6, 0], [2, 6, 0, 1], [2, 6, 0, 1]),
    ([3, 9, 0], [3, 9, 0, 1], [3, 9, 0, 3]),
    ([3, 9, 4], [3, 9, 4, 3], [3, 9, 4, 3]),
    ([3, 9, 5], [3, 9, 5, 2], [3, 9, 5, 2]),
    ([4, 3, 0], [4, 3, 0, 3], [4, 3, 0, 3]),
];

fn refused(number: u32, sheet: u32, row: u32) -> Result<Row, Refusal> {
    Err(Refusal { number, sheet, row })
}

fn by_hand(tally: &mut Tally) {
    tally.test("the deeds by hand are valid", judge_words(&DEEDS).number == 0);
    for (wanted, deeds_first, deeds_second) in FOUND {
        let found = lookup(wanted, &DEEDS, &HAND_WORDS) == Ok(deeds_first);
        tally.test(&format!("lookup by hand: {wanted:?}, the deeds first"), found);
        let found = lookup(wanted, &HAND_WORDS, &DEEDS) == Ok(deeds_second);
        tally.test(&format!("lookup by hand: {wanted:?}, the deeds second"), found);
    }
    for wanted in [[3, 9, 1], [3, 9, 6], [1, 9, 0], [2, 5, 0], [0, 0, 0], [3, 0, 4], [4, 3, 3]] {
        let none = lookup(wanted, &DEEDS, &HAND_WORDS) == refused(32, 0, 0);
        tally.test(&format!("lookup by hand: {wanted:?} is in neither"), none);
    }
    let (mut form, mut late) = (DEEDS, DEEDS);
    (form[0], late[17]) = (2, 0);
    let wanted = [3, 9, 0];
    let says = [
        ("a bad first", lookup(wanted, &late, &DEEDS), (8, 1, 2)),
        ("a bad second", lookup(wanted, &DEEDS, &late), (8, 2, 2)),
        ("both bad", lookup(wanted, &late, &form), (8, 1, 2)),
        ("both bad, the other way", lookup(wanted, &form, &late), (2, 1, 0)),
        ("a bad second, and in neither", lookup([1, 1, 1], &DEEDS, &form), (2, 2, 0)),
        ("no words", lookup(wanted, &DEEDS, &[]), (1, 2, 0)),
    ];
    for (name, given, (number, sheet, row)) in says {
        tally.test(&format!("lookup by hand: {name}"), given == refused(number, sheet, row));
    }
}

fn outputs(tally: &mut Tally) {
    let request = |variant: u32, out_len: usize| Request {
        operation: LOOKUP,
        numbers: [3, 9, variant, 77, 77, 77],
        first: bytes_of(&DEEDS),
        second: bytes_of(&HAND_WORDS),
        out_len,
        fill: 70,
    };
    let long = expect(&request(4, 6));
    tally.test("a part and the fill", long.output == [3, 9, 4, 3, 70, 70]);
    tally.test("a part's reply", long.reply == [0, 0, 0, 0, 4, 0, 0, 6]);
    let short = expect(&request(4, 3));
    tally.test("as much of a part as fits", short.output == [3, 9, 4]);
    tally.test("a part that does not fit is counted", short.reply == [0, 0, 0, 0, 4, 0, 0, 3]);
    let none = expect(&request(4, 0));
    tally.test("a part without room", none.reply == [0, 0, 0, 0, 4, 0, 0, 0]);
    let refused = expect(&request(7, 5));
    tally.test("a refused lookup leaves the fill", refused.output == [70; 5]);
    tally.test("a refused lookup's reply", refused.reply == [32, 0, 0, 0, 0, 0, 0, 5]);
}

fn made_pairs(tally: &mut Tally) {
    for number in 0..400 {
        let random = &mut Random::for_case(2, number);
        let (relation, (first, second)) = pairs::any(random);
        for (which, outline) in [("first", first), ("second", second)] {
            for count in [1, 2] {
                let sheet = outline.marked(random, count);
                let name = format!("pair {number}, {relation}, the {which}, {count} offices");
                tally.test(&name, judge_words(&sheet.words()).number == 0);
                let whole = count == 2 || Outline::of(&sheet) == outline;
                tally.test(&format!("{name}: all of it"), whole);
            }
        }
    }
}

fn repeatable_lookups(tally: &mut Tally) {
    repeatable(tally, "lookup", Plan::before_joins, |lookups| Counts { lookups, ..NONE });
}

fn distinguished(tally: &mut Tally) {
    let plan = Plan::new(1, Counts { lookups: CASES, ..NONE });
    let end = plan.before_joins();
    let cases: Vec<Case> = (end - CASES..end).map(|at| plan.case(at)).collect();
    told_apart(tally, &cases, WRONG.iter(), ENOUGH);
}
