//! What questions 5 to 10 must have been asked and answered, goal by goal: their
//! refusals, and every amount of room.

use crate::goals::contents;
use crate::goals::rooms::{room_goal, ROOMS};
use crate::model::office::Office;
use crate::model::redundant::redundant_rows;
use crate::model::sheet::*;
use crate::model::survey::*;
use crate::trial::request::{Expected, Request};

fn refusals(operation: u32) -> Vec<u32> {
    let own: &[u32] = match operation {
        IN_CATEGORY => &[24],
        GRANTED => &[22, 23],
        BOTH => &[26],
        TWO_DEEDS => &[22, 31, 26],
        _ => &[],
    };
    (1..=17).chain([20]).chain(own.iter().copied()).chain([25]).collect()
}

/// How an empty result is answered: by 26, or by a list of no words.
fn empty_goals(operation: u32) -> [&'static str; 2] {
    match operation {
        BOTH | TWO_DEEDS => ["none, with room", "none, no room at all"],
        _ => ["an empty list, with room", "an empty list, no room at all"],
    }
}

const FULL: &str = "a full sheet";

/// Where it is asked for by number.
const STRANGERS: [(u32, &[&str]); 3] = [
    (IN_CATEGORY, &["24, known at the other office alone"]),
    (GRANTED, &["22, known at the other office alone", "23, known at the other office alone"]),
    (
        TWO_DEEDS,
        &[
            "22, known at the other office alone",
            "22, the first deed alone",
            "22, the second deed alone",
            "22, equal deeds",
        ],
    ),
];

const LIMITS: [&str; 3] =
    ["number 0 refused", "number 4294967295 refused", "number 4294967295 answered"];

pub fn needed() -> Vec<String> {
    let mut goals = Vec::new();
    for operation in IN_CATEGORY..=REDUNDANT {
        let mut own: Vec<String> =
            refusals(operation).iter().map(|number| format!("refusal {number}")).collect();
        own.extend(ROOMS.map(|room| format!("found, {room}")));
        own.extend(empty_goals(operation).map(String::from));
        own.push(FULL.to_string());
        goals.extend(own.into_iter().map(|goal| (operation, goal)));
    }
    for (operation, strangers) in STRANGERS {
        goals.extend(strangers.iter().map(|goal| (operation, format!("refusal {goal}"))));
        goals.extend(LIMITS.map(|goal| (operation, goal.to_string())));
    }
    goals.extend(contents::needed());
    goals.into_iter().map(|(operation, goal)| format!("question {operation}: {goal}")).collect()
}

/// The goals one case meets, from what is expected of it.
pub fn met(request: &Request, expected: &Expected) -> Vec<String> {
    let operation = request.operation;
    let words = words_of(&request.first);
    let [number, _, _, _, count, ..] = expected.reply;
    let mut goals: Vec<String> = Vec::new();
    match number {
        0 => {
            let written = &expected.output[..count as usize];
            goals.extend(contents::met(request, &words, written));
        }
        _ => goals.push(format!("refusal {number}")),
    }
    // Whatever came of it: 25 and 26 come after all the work.
    if matches!(number, 0 | 25 | 26) && is_full(&words) {
        goals.push(FULL.to_string());
    }
    goals.extend(room_met(request, &words, number, count as usize));
    goals.extend(limit_goals(request, number).into_iter().map(String::from));
    if number == 22 || number == 23 || number == 24 {
        goals.extend(stranger_goals(request, &words, number));
    }
    goals.into_iter().map(|goal| format!("question {operation}: {goal}")).collect()
}

fn room_met(request: &Request, words: &[u32], number: u32, count: usize) -> Option<String> {
    let room = request.out_len;
    let found = |length: usize| room_goal(length, room).map(|goal| format!("found, {goal}"));
    match number {
        0 | 26 if count == 0 => {
            let [with_room, without] = empty_goals(request.operation);
            Some(if room == 0 { without } else { with_room }.to_string())
        }
        0 => found(count),
        25 => found(wanted(request, words)),
        _ => None,
    }
}

/// How many words were wanted of an output that was too short.
fn wanted(request: &Request, words: &[u32]) -> usize {
    match request.operation {
        BOTH => 3,
        TWO_DEEDS => 2,
        REDUNDANT => redundant_rows(words, request.numbers[0]).len(),
        operation => {
            let roomy = survey(operation, &request.numbers, words, usize::MAX);
            roomy.map_or(0, |answer| answer.written.len())
        }
    }
}

fn asked(request: &Request) -> &[u32] {
    match request.operation {
        IN_CATEGORY => &request.numbers[1..2],
        GRANTED | TWO_DEEDS => &request.numbers[1..3],
        _ => &[],
    }
}

fn limit_goals(request: &Request, number: u32) -> Vec<&'static str> {
    let asked = asked(request);
    let mut goals = Vec::new();
    match number {
        0 if asked.contains(&u32::MAX) => goals.push(LIMITS[2]),
        22..=24 if asked.contains(&0) => goals.push(LIMITS[0]),
        _ => {}
    }
    if (22..=24).contains(&number) && asked.contains(&u32::MAX) {
        goals.push(LIMITS[1]);
    }
    goals
}

fn stranger_goals(request: &Request, words: &[u32], number: u32) -> Vec<String> {
    let (here, all) = (Office::of(words, request.numbers[0]), Office::stitched(words));
    let asked = asked(request);
    let mut goals = Vec::new();
    let elsewhere = match number {
        24 => all.categories.contains(&asked[0]),
        23 => all.folios.contains(&asked[1]),
        _ => {
            let unknown = asked.iter().find(|&&deed| !here.knows_deed(deed));
            unknown.is_some_and(|&deed| all.knows_deed(deed))
        }
    };
    if elsewhere {
        goals.push(format!("refusal {number}, known at the other office alone"));
    }
    if request.operation == TWO_DEEDS {
        let known = [here.knows_deed(asked[0]), here.knows_deed(asked[1])];
        let which = match known {
            [false, true] => Some("refusal 22, the first deed alone"),
            [true, false] => Some("refusal 22, the second deed alone"),
            _ if asked[0] == asked[1] => Some("refusal 22, equal deeds"),
            _ => None,
        };
        goals.extend(which.map(String::from));
    }
    goals
}
