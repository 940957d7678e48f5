//! Tests of the answers to questions 1 to 4, by hand.

use std::collections::BTreeSet;

use crate::cases::plan::{Counts, Plan};
use crate::generate::longest::{longest, Course, COURSES, MOST_CATEGORIES};
use crate::generate::random::Random;
use crate::goals::{needed, Goals};
use crate::model::answer::{answer, is_path, joint, Answer, Refusal, ANSWER};
use crate::model::closure::{has_path, witness};
use crate::model::judge::judge_words;
use crate::model::limits::{MOST_EDGES, MOST_NODES, WORD};
use crate::model::office::{Ask, Office, Side};
use crate::model::sheet::*;
use crate::named;
use crate::named::question_refusals::RULES;
use crate::named::sister;
use crate::run::tally::Tally;
use crate::selftest;
use crate::selftest::repeatable::{repeatable, NONE};
use crate::trial::expect::expect;
use crate::trial::request::Request;

pub fn run(tally: &mut Tally) {
    joint_words(tally);
    by_hand(tally);
    list_lengths(tally);
    rules(tally);
    outputs(tally);
    selftest::named::run(tally, "questions", &named::questions::all(), Plan::before_questions);
    longest_sheets(tally);
    goal_misses(tally);
    repeatable_questions(tally);
}

/// The joint of A and B as the document has it: 70 words.
#[rustfmt::skip]
pub const JOINT_WORDS: [u32; 70] = [
    1,2,8,8,6,38,
    1,11,0,3, 1,12,0,1, 2,21,0,3, 2,22,0,1, 3,31,1,1, 3,31,2,3, 4,41,0,1, 4,42,0,3,
    1,0,2,3, 1,1,3,1, 2,2,3,1, 3,2,5,2, 3,3,4,1, 4,2,5,1, 5,4,6,1, 5,5,7,3,
];

/// Person 5 in categories 6 and 7, both of them contained in 8. 8 grants 9/0
/// and 9/4, 6 bans both, 7 bans 9/4, 8 bans 9/0; both apply to folio 3. Office 2
/// has no ban, no category 6, and there 9/0 does not apply.
#[rustfmt::skip]
pub const HAND_WORDS: [u32; 82] = [
    1,2,7,12,6,34,
    1,5,0,3, 2,6,0,1, 2,7,0,3, 2,8,0,3, 3,9,0,3, 3,9,4,3, 4,3,0,3,
    1,0,1,1, 1,0,2,3, 2,1,3,1, 2,2,3,3, 3,3,4,3, 3,3,5,3, 4,1,4,1, 4,1,5,1, 4,2,5,1,
    4,3,4,1, 5,4,6,1, 5,5,6,3,
];

fn joint_words(tally: &mut Tally) {
    let same = sister::joint_of_a_and_b().words() == JOINT_WORDS;
    tally.test("the joint of A and B, word for word", same);
}

fn value(value: u32) -> Result<Answer, Refusal> {
    Ok(Answer { value, ..Answer::default() })
}

fn decided(value: u32, office: u32) -> Result<Answer, Refusal> {
    Ok(Answer { value, count: office, ..Answer::default() })
}

fn path(written: &[u32]) -> Result<Answer, Refusal> {
    Ok(Answer { count: written.len() as u32, written: written.to_vec(), ..Answer::default() })
}

fn refused(number: u32) -> Result<Answer, Refusal> {
    Err(Refusal { number, sheet: 0, row: 0 })
}

/// Operation, numbers, room, what is expected.
type Hand = (u32, &'static [u32], usize, Result<Answer, Refusal>);

#[rustfmt::skip]
fn hands() -> Vec<Hand> {
    vec![
        (1, &[1, 5, 9, 3], 0, value(3)),
        (1, &[2, 5, 9, 3], 0, value(1)),
        (1, &[0, 5, 9, 3], 0, refused(20)),
        (1, &[3, 5, 9, 3], 0, refused(20)),
        (1, &[3, 6, 8, 4], 0, refused(20)),
        (1, &[1, 6, 8, 4], 0, refused(21)),
        (1, &[2, 5, 8, 4], 0, refused(22)),
        (1, &[1, 5, 9, 4], 0, refused(23)),
        (2, &[1, 5, 9, 3], 0, decided(1, 1)),
        (2, &[2, 5, 9, 3], 0, decided(2, 1)),
        (2, &[3, 5, 9, 3], 0, decided(3, 1)),
        (2, &[0, 5, 9, 3], 0, refused(27)),
        (2, &[4, 6, 8, 4], 0, refused(27)),
        (2, &[3, 6, 8, 4], 0, refused(21)),
        (2, &[3, 5, 8, 4], 0, refused(22)),
        (2, &[3, 5, 9, 4], 0, refused(23)),
        (3, &[1, 0, 5, 9, 3], 10, path(&[5,0, 6,0, 8,0, 9,0, 3,0])),
        (3, &[1, 0, 5, 9, 3], 9, refused(25)),
        (3, &[2, 0, 5, 9, 3], 99, path(&[5,0, 7,0, 8,0, 9,4, 3,0])),
        (3, &[2, 0, 5, 9, 3], 0, refused(25)),
        (3, &[1, 1, 5, 9, 3], 8, path(&[5,0, 6,0, 9,0, 3,0])),
        (3, &[1, u32::MAX, 5, 9, 3], 7, refused(25)),
        (3, &[2, 1, 5, 9, 3], 0, refused(26)),
        (3, &[2, 1, 5, 9, 3], 40, refused(26)),
        (3, &[3, 1, 6, 9, 3], 40, refused(20)),
        (3, &[2, 1, 6, 8, 3], 40, refused(21)),
        (3, &[2, 1, 5, 8, 4], 40, refused(22)),
        (3, &[2, 1, 5, 9, 4], 40, refused(23)),
        (4, &[0, 1, 5, 9, 3], 0, refused(20)),
        (4, &[3, 1, 6, 8, 4], 0, refused(20)),
        (4, &[1, 1, 6, 8, 4], 0, value(0)),
    ]
}

/// Office, kind, list, whether it is a path for 5, 9, 3.
#[rustfmt::skip]
const HAND_LISTS: [(u32, u32, &[u32], bool); 16] = [
    (1, 0, &[5,0, 6,0, 8,0, 9,0, 3,0], true),
    (1, 0, &[5,0, 7,0, 8,0, 9,0, 3,0], true),
    (1, 0, &[5,0, 7,0, 8,0, 9,4, 3,0], true),
    (2, 0, &[5,0, 7,0, 8,0, 9,4, 3,0], true),
    (2, 0, &[5,0, 7,0, 8,0, 9,0, 3,0], false),
    (2, 0, &[5,0, 6,0, 8,0, 9,4, 3,0], false),
    (1, 1, &[5,0, 6,0, 9,0, 3,0], true),
    (1, 1, &[5,0, 6,0, 9,4, 3,0], true),
    (1, 7, &[5,0, 7,0, 9,4, 3,0], true),
    (1, 1, &[5,0, 7,0, 9,0, 3,0], false),
    (1, 0, &[5,0, 6,0, 9,0, 3,0], false),
    (1, 1, &[5,0, 7,0, 8,0, 9,0, 3,0], false),
    (1, 0, &[5,0, 8,0, 9,0, 3,0], false),
    (1, 0, &[5,0, 6,1, 8,0, 9,0, 3,0], false),
    (1, 0, &[5,0, 6,0, 8,0, 9,1, 3,0], false),
    (1, 0, &[5,1, 6,0, 8,0, 9,0, 3,0], false),
];

fn by_hand(tally: &mut Tally) {
    tally.test("the sheet by hand is valid", judge_words(&HAND_WORDS).number == 0);
    for (operation, numbers, room, says) in hands() {
        let name = format!("question {operation} by hand: {numbers:?} with room {room}");
        let given = answer(operation, numbers, &HAND_WORDS, &[], room);
        tally.test(&name, given == says);
    }
    for (office, kind, list, yes) in HAND_LISTS {
        let given = answer(4, &[office, kind, 5, 9, 3], &HAND_WORDS, list, 0);
        let name = format!("question 4 by hand: {list:?} at {office}, kind {kind}");
        tally.test(&name, given == value(u32::from(yes)));
    }
    let mut bad = HAND_WORDS;
    bad[81] = 0;
    for operation in 1..=4 {
        let given = answer(operation, &[9, 9, 9, 9, 9], &bad, &[], 0);
        let says = Err(Refusal { number: 15, sheet: 1, row: 11 });
        tally.test(&format!("question {operation} of a bad last edge"), given == says);
    }
}

fn list_lengths(tally: &mut Tally) {
    let office = Office::of(&HAND_WORDS, 1);
    let ask = Ask { person: 5, deed: 9, folio: 3 };
    for length in 0..40 {
        let list: Vec<u32> =
            [5, 0, 6, 0, 8, 0, 9, 0, 3, 0].into_iter().cycle().take(length).collect();
        let yes = is_path(&office, Side::Grant, &ask, &list);
        tally.test(&format!("a list of {length} words"), yes == (length == 10));
    }
}

fn rules(tally: &mut Tally) {
    for (at, rule) in RULES.iter().enumerate() {
        for (first, row) in rule.iter().enumerate() {
            for (second, &says) in row.iter().enumerate() {
                let given = joint(at as u32 + 1, &[first as u32, second as u32]);
                let name = format!("rule {}, answers {first} and {second}", at + 1);
                tally.test(&name, given == says);
            }
            let name = format!("rule {}, answer {first} of one office", at + 1);
            let says = row[0];
            tally.test(&name, joint(at as u32 + 1, &[first as u32]) == says);
        }
    }
}

fn outputs(tally: &mut Tally) {
    let request = |room: usize| Request {
        operation: 3,
        numbers: [1, 1, 5, 9, 3, 77],
        first: bytes_of(&HAND_WORDS),
        second: vec![1, 2, 3],
        out_len: room,
        fill: 70,
    };
    let long = expect(&request(11));
    tally.test("a witness and the fill", long.output == [5, 0, 6, 0, 9, 0, 3, 0, 70, 70, 70]);
    tally.test("a witness's reply", long.reply == [0, 0, 0, 0, 8, 0, 0, 11]);
    let short = expect(&request(7));
    tally.test("a refusal leaves the fill", short.output == [70; 7]);
    tally.test("a refusal's reply", short.reply == [25, 0, 0, 0, 0, 0, 0, 7]);
    let mut uneven = request(8);
    uneven.first.extend([1, 2, 3]);
    tally.test("a remainder is dropped", expect(&uneven).reply == [0, 0, 0, 0, 8, 0, 0, 8]);
    let mut bad = request(8);
    bad.first.truncate(WORD * HAND_WORDS.len() - 1);
    tally.test("a bad sheet's reply", expect(&bad).reply == [5, 1, 0, 0, 0, 0, 0, 8]);
}

fn longest_sheets(tally: &mut Tally) {
    for course in COURSES {
        for side in [Side::Grant, Side::Ban] {
            let made = longest(&mut Random::for_case(3, 0), side, course);
            let sheet = made.sheet.words();
            let name = format!("{course:?} of {side:?}s");
            let whole = judge_words(&sheet).number == 0 && node_count(&sheet) == MOST_NODES;
            tally.test(&format!("{name} is valid and has all nodes"), whole);
            let found = witness(&Office::of(&sheet, 1), side, &made.ask).unwrap_or_default();
            let line: Vec<u32> =
                found.iter().skip(1).map(|node| node.0).take(MOST_CATEGORIES as usize).collect();
            let all = found.len() == MOST_NODES && line == made.line;
            tally.test(&format!("{name} leads through all categories"), all);
            let other = has_path(&Office::of(&sheet, 1), side.other(), &made.ask);
            tally.test(&format!("{name}, the other side"), other == (course == Course::BothWays));
        }
    }
    let full = longest(&mut Random::for_case(3, 0), Side::Ban, Course::Backward).sheet;
    tally.test("backward steps fill the edge table", full.edges.len() == MOST_EDGES);
}

fn goal_misses(tally: &mut Tally) {
    tally.test("no goal met misses them all", Goals::default().misses() == needed());
    let distinct: BTreeSet<String> = needed().into_iter().collect();
    tally.test("no two goals are the same", distinct.len() == needed().len());
    tally.test("2002 goals are needed", needed().len() == 2_002);
    for left_out in needed() {
        let mut goals = Goals::default();
        let met = needed().into_iter().filter(|goal| *goal != left_out);
        met.for_each(|goal| goals.add(&goal));
        let name = format!("a goal not met is reported: {left_out}");
        tally.test(&name, goals.misses() == [left_out]);
    }
}

fn repeatable_questions(tally: &mut Tally) {
    repeatable(tally, "question", Plan::before_surveys, |questions| Counts { questions, ..NONE });
    let plan = Plan::new(5, Counts { questions: 4, ..NONE });
    let end = plan.before_surveys();
    let asked = |number: usize| plan.case(end - 4 + number).about.operation;
    let all: BTreeSet<u32> = (0..4).map(asked).collect();
    tally.test("four questions in turn", all == (ANSWER..ANSWER + 4).collect());
}
