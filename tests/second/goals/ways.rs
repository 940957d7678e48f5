//! What questions 1 to 3 must have been asked and answered of an opened sheet and
//! by the counter: all that they must have been asked of the bare words, and the
//! lengths of a file.

use crate::goals::questions;
use crate::model::answer::WITNESS;
use crate::model::judge::judge_words;
use crate::model::limits::{HEADER, MOST_BYTES, MOST_WORDS, WORD};
use crate::model::sheet::words_of;
use crate::trial::operation::{called, operations, way_of, Way};
use crate::trial::request::{Expected, Request, MOST_PAYLOAD};

/// In the order in which `lengths` tells them.
const FILES: [&str; 10] = [
    "33, uneven",
    "33, shorter than a header",
    "33, one byte above the most",
    "33, one word above the most",
    "33, the longest payload",
    "33, though its words are a sheet",
    "33, and its words are none",
    "1, no bytes",
    "the most bytes, and not 33",
    "answered, with fewer bytes than the most words",
];

pub fn needed() -> Vec<String> {
    operations().into_iter().flat_map(of_operation).collect()
}

fn of_operation(operation: u32) -> Vec<String> {
    let Some((way, question)) = way_of(operation) else {
        return Vec::new();
    };
    let whole = questions::needed();
    let mut goals: Vec<String> =
        whole.iter().filter_map(|goal| renamed(goal, question, operation)).collect();
    match way {
        Way::Counter => goals.extend(FILES.map(|goal| told(operation, goal))),
        Way::Opened => goals.push(told(operation, REMAINDER)),
    }
    goals
}

const REMAINDER: &str = "answered, with a remainder";

fn told(operation: u32, goal: &str) -> String {
    format!("{}: {goal}", called(operation))
}

/// A question's goal, under the name of the operation.
fn renamed(goal: &str, question: u32, operation: u32) -> Option<String> {
    goal.strip_prefix(&format!("{}: ", called(question))).map(|goal| told(operation, goal))
}

pub fn met(request: &Request, expected: &Expected, way: Way, question: u32) -> Vec<String> {
    let operation = request.operation;
    let mut goals = Vec::new();
    if expected.reply[0] != 33 {
        let bare = Request { operation: question, ..request.clone() };
        let mut counted = expected.clone();
        if (way, question) == (Way::Counter, WITNESS) {
            counted.reply[4] /= WORD as u32;
        }
        let of_question = questions::met(&bare, &counted);
        goals.extend(of_question.iter().filter_map(|goal| renamed(goal, question, operation)));
    }
    match way {
        Way::Counter => {
            let lengths = lengths(&request.first, expected.reply[0]);
            let met = FILES.iter().zip(lengths).filter(|(_, met)| *met);
            goals.extend(met.map(|(goal, _)| told(operation, goal)));
        }
        Way::Opened if expected.reply[0] == 0 && request.first.len() % WORD != 0 => {
            goals.push(told(operation, REMAINDER));
        }
        Way::Opened => {}
    }
    goals
}

fn lengths(bytes: &[u8], number: u32) -> [bool; 10] {
    let (length, refused) = (bytes.len(), number == 33);
    let a_sheet = refused && judge_words(&words_of(bytes)).number == 0;
    [
        refused && length % WORD != 0,
        refused && length < WORD * HEADER,
        refused && length == MOST_BYTES + 1,
        refused && length == MOST_BYTES + WORD,
        refused && length == MOST_PAYLOAD,
        a_sheet,
        refused && !a_sheet,
        number == 1 && length == 0,
        !refused && length == MOST_BYTES,
        number == 0 && length < MOST_WORDS,
    ]
}
