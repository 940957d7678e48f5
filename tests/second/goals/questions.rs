//! Questions 1 to 4: their refusals, every answer, paths and lists of every kind.

use crate::model::answer::{ask_of, ANSWER, JOINT, LISTED, WITNESS};
use crate::model::closure::witness;
use crate::model::limits::{MOST_NODES, MOST_OFFICES, WORD};
use crate::model::office::{Office, Side};
use crate::model::sheet::words_of;
use crate::trial::request::{Expected, Request};

fn refusals(operation: u32) -> Vec<u32> {
    let own: &[u32] = match operation {
        ANSWER => &[20, 21, 22, 23],
        JOINT => &[27, 21, 22, 23],
        WITNESS => &[20, 21, 22, 23, 26, 25],
        _ => &[20],
    };
    (1..=17).chain(own.iter().copied()).collect()
}

/// Rules 1 and 2 never answer Both, and only Undetermined has no office.
fn joint_answers(rule: u32) -> Vec<(u32, u32)> {
    let most = if rule == 3 { 3 } else { 2 };
    let offices = |value| (1..=MOST_OFFICES).map(move |office| (value, office));
    let decided = (1..=most).flat_map(offices);
    [(0, 0)].into_iter().chain(decided).collect()
}

const WITNESS_GOALS: [&str; 7] = [
    "found",
    "found, exactly long enough",
    "found, room to spare",
    "found, as long as can be",
    "none",
    "one word short",
    "no room at all",
];

const LIST_GOALS: [&str; 6] = [
    "yes",
    "yes, though not the shortest",
    "no",
    "no, odd length",
    "no, empty",
    "no, 10000 words or more",
];

pub fn needed() -> Vec<String> {
    let mut goals = Vec::new();
    for operation in ANSWER..=LISTED {
        let refused = refusals(operation).into_iter();
        goals.extend(refused.map(|number| format!("question {operation}: refusal {number}")));
    }
    for operation in [ANSWER, WITNESS] {
        goals.extend((21..=23).map(|number| elsewhere(operation, number)));
    }
    goals.extend((0..=3).map(|value| format!("question 1: answer {value}")));
    for rule in 1..=3 {
        let joint = joint_answers(rule).into_iter();
        goals.extend(joint.map(|(value, office)| joint_goal(rule, value, office)));
    }
    for side in [Side::Grant, Side::Ban] {
        goals.extend(WITNESS_GOALS.map(|goal| format!("question 3: {side:?} path {goal}")));
        goals.extend(LIST_GOALS.map(|goal| format!("question 4: {side:?} list {goal}")));
    }
    goals
}

fn elsewhere(operation: u32, number: u32) -> String {
    format!("question {operation}: refusal {number}, known at the other office alone")
}

fn joint_goal(rule: u32, value: u32, office: u32) -> String {
    format!("question 2: rule {rule}, answer {value} by office {office}")
}

/// The goals one case meets, from what is expected of it.
pub fn met(request: &Request, expected: &Expected) -> Vec<String> {
    let operation = request.operation;
    let [number, _, _, value, count, ..] = expected.reply;
    let mut goals = Vec::new();
    if number != 0 {
        goals.push(format!("question {operation}: refusal {number}"));
        goals.extend(known_elsewhere(request, number));
    }
    let side = Side::of_word(request.numbers[1]);
    match operation {
        ANSWER if number == 0 => goals.push(format!("question 1: answer {value}")),
        JOINT if number == 0 => goals.push(joint_goal(request.numbers[0], value, count)),
        WITNESS => {
            let of_path = witness_goals(request, number, count).into_iter();
            goals.extend(of_path.map(|goal| format!("question 3: {side:?} path {goal}")));
        }
        LISTED if number == 0 => {
            let of_list = list_goals(request, value).into_iter();
            goals.extend(of_list.map(|goal| format!("question 4: {side:?} list {goal}")));
        }
        _ => {}
    }
    goals
}

fn known_elsewhere(request: &Request, number: u32) -> Option<String> {
    let operation = request.operation;
    if !(21..=23).contains(&number) || operation == JOINT {
        return None;
    }
    let all = Office::stitched(&words_of(&request.first));
    let ask = ask_of(operation, &request.numbers);
    let known = match number {
        21 => all.persons.contains(&ask.person),
        22 => all.knows_deed(ask.deed),
        _ => all.folios.contains(&ask.folio),
    };
    known.then(|| elsewhere(operation, number))
}

fn witness_goals(request: &Request, number: u32, count: u32) -> Vec<&'static str> {
    let mut goals = Vec::new();
    let (room, count) = (request.out_len, count as usize);
    match number {
        0 => {
            goals.push("found");
            goals.push(if room == count { WITNESS_GOALS[1] } else { WITNESS_GOALS[2] });
            if count == 2 * MOST_NODES {
                goals.push("found, as long as can be");
            }
        }
        26 => goals.push("none"),
        25 if room == 0 => goals.push("no room at all"),
        25 if path_words(request) == room + 1 => goals.push("one word short"),
        _ => {}
    }
    goals
}

fn list_goals(request: &Request, value: u32) -> Vec<&'static str> {
    let length = request.second.len() / WORD;
    if value == 1 {
        let shortest = length == path_words(request);
        return if shortest { vec!["yes"] } else { vec!["yes", LIST_GOALS[1]] };
    }
    let mut goals = vec!["no"];
    if length % 2 == 1 {
        goals.push("no, odd length");
    }
    if length == 0 {
        goals.push("no, empty");
    }
    if length >= 10_000 {
        goals.push("no, 10000 words or more");
    }
    goals
}

/// How long the witness is of what was asked.
fn path_words(request: &Request) -> usize {
    let office = Office::of(&words_of(&request.first), request.numbers[0]);
    let ask = ask_of(request.operation, &request.numbers);
    let path = witness(&office, Side::of_word(request.numbers[1]), &ask);
    path.map_or(0, |path| 2 * path.len())
}
