//! Tests of the full sheets of questions 1 to 4: that they are full, that every shape meets
//! every answer, and that their cases tell each wrong version from the right one.

use std::collections::BTreeSet;

use crate::cases::plan::{Case, Counts, Plan};
use crate::generate::full::SHAPES;
use crate::misread::full_sheets::{Asking, RIGHT, WRONG};
use crate::misread::Asked;
use crate::model::judge::{judge_words, ACCEPTED};
use crate::model::office::Side;
use crate::model::sheet::*;
use crate::named;
use crate::named::layout::CATEGORIES;
use crate::run::tally::Tally;
use crate::selftest;
use crate::selftest::misread::told_apart;
use crate::trial::expect::told;

/// How many cases have to show each mistake.
const ENOUGH: usize = 2;

pub fn run(tally: &mut Tally) {
    let all = named::full_sheets::all();
    selftest::named::run(tally, "full sheets", &all, Plan::before_full_sheets);
    let plan = Plan::new(1, Counts::default());
    let numbers = plan.before_full_sheets()..plan.before_built();
    tally.test("every case of a full sheet is named", numbers.len() == all.len());
    let cases: Vec<Case> = numbers.map(|number| plan.case(number)).collect();
    full(tally, &cases);
    every_answer(tally, &cases);
    told_apart(tally, &cases, WRONG.iter(), ENOUGH);
    right_versions(tally, &cases);
}

/// Of three cases one is looked at: each takes some milliseconds.
fn right_versions(tally: &mut Tally, cases: &[Case]) {
    let asked: Vec<(&Case, Asking)> = cases
        .iter()
        .step_by(3)
        .filter_map(|case| Some((case, Asking::of(&case.request)?)))
        .collect();
    for version in RIGHT {
        let own = |case: &Case| version.operations.contains(&case.request.operation);
        let mut own = asked.iter().filter(|(case, _)| own(case)).peekable();
        let some = own.peek().is_some();
        let same =
            own.all(|(case, asked)| told(&case.request, (version.read)(asked)) == case.expected);
        tally.test(&format!("not told apart: {}", version.name), some && same);
    }
}

/// As many rows as there may be, and so many categories.
fn full(tally: &mut Tally, cases: &[Case]) {
    for case in cases {
        let words = words_of(&case.request.first);
        let categories = node_rows(&words).iter().filter(|row| row[0] == CATEGORY).count();
        let whole = judge_words(&words) == ACCEPTED && is_full(&words);
        let name = format!("a full sheet: {}", case.about.name);
        tally.test(&name, whole && categories == CATEGORIES as usize);
    }
}

/// What must be said of each shape and side: operation, refusal, answer, and the office that
/// decides a joint answer. `alone` is the answer where the side has the only path.
fn wanted(offices: u32, alone: u32) -> Vec<[u32; 4]> {
    let mut said = vec![[3, 0, 0, 0], [3, 25, 0, 0], [3, 26, 0, 0], [4, 0, 0, 0], [4, 0, 1, 0]];
    let joint: &[[u32; 2]] = match (offices, alone) {
        (1, _) => &[[0, 0], [1, 1], [2, 1], [3, 1]],
        (_, 1) => &[[0, 0], [1, 2], [2, 1], [3, 2]],
        _ => &[[0, 0], [1, 1], [2, 2], [3, 2]],
    };
    said.extend(joint.iter().map(|&[value, office]| [2, 0, value, office]));
    let at_office: &[u32] = if offices == 1 { &[0, alone, 3] } else { &[0, 1, 2, 3] };
    said.extend(at_office.iter().map(|&value| [1, 0, value, 0]));
    said.extend(match offices {
        1 => [14, 21].map(|operation| [operation, 0, alone, 0]),
        _ => [15, 22].map(|operation| [operation, 0, alone, 2]),
    });
    if offices == 1 {
        said.extend([16, 23].map(|operation| [operation, 0, 0, 0]));
    }
    said
}

fn every_answer(tally: &mut Tally, cases: &[Case]) {
    for shape in SHAPES {
        for (side, alone) in [(Side::Grant, 1), (Side::Ban, 2)] {
            for offices in [1, 2] {
                let name = format!("full {shape:?} of {side:?}s, offices {offices}");
                let own = cases.iter().filter(|case| case.about.name.starts_with(&name));
                let said: BTreeSet<[u32; 4]> = own.map(in_short).collect();
                let wanted: BTreeSet<[u32; 4]> = wanted(offices, alone).into_iter().collect();
                tally.test(&format!("every answer of a {name}: {said:?}"), said == wanted);
            }
        }
    }
}

fn in_short(case: &Case) -> [u32; 4] {
    let (operation, [number, _, _, value, count, ..]) =
        (case.request.operation, case.expected.reply);
    let office = if matches!(operation, 2 | 15 | 22) { count } else { 0 };
    [operation, number, value, office]
}
