//! The operations of the trial program: 1 to 10 are the document's questions, and
//! the others have numbers of their own.

use crate::model::answer::{is_question, LISTED, WITNESS};
use crate::model::position::{Table, TABLES};

pub const CHECK_WORDS: u32 = 0;
pub const LOOKUP: u32 = 11;
pub const JOIN: u32 = 12;
pub const TAKE_OUT: u32 = 13;
pub const CHECK_BYTES: u32 = 20;
pub const READ_LISTING: u32 = 30;
pub const WRITE_LISTING: u32 = 31;
pub const FIND_NODE: u32 = 32;
pub const FIND_EDGE: u32 = 33;
pub const ADD_NODE: u32 = 34;
pub const ADD_EDGE: u32 = 35;
pub const TRACE: u32 = 36;
pub const STEPS: u32 = 37;

/// Some that there are not.
pub const NO_OPERATIONS: [u32; 8] = [24, 25, 26, 27, 28, 29, 38, u32::MAX];

/// What the trial program says of an operation that it does not have.
pub const UNKNOWN: u32 = u32::MAX;

/// As the document calls it.
pub fn called(operation: u32) -> String {
    match is_question(operation) {
        true => format!("question {operation}"),
        false => format!("operation {operation}"),
    }
}

/// Whether the answer goes into the output, so that its room counts.
pub fn writes(operation: u32) -> bool {
    match way_of(operation) {
        Some((_, question)) => question == WITNESS,
        None if matches!(operation, READ_LISTING | WRITE_LISTING | ADD_NODE..=STEPS) => true,
        None => (WITNESS..=TAKE_OUT).contains(&operation) && operation != LISTED,
    }
}

/// The operation that searches this table.
pub fn finding(table: Table) -> u32 {
    match table {
        Table::Nodes => FIND_NODE,
        Table::Edges => FIND_EDGE,
    }
}

/// The operation that adds a row to this table.
pub fn adding(table: Table) -> u32 {
    match table {
        Table::Nodes => ADD_NODE,
        Table::Edges => ADD_EDGE,
    }
}

/// The table that one of these four is about.
pub fn table_of(operation: u32) -> Option<Table> {
    TABLES.into_iter().find(|&table| [finding(table), adding(table)].contains(&operation))
}

/// Another way to questions 1 to 3: of an opened sheet, or by the counter's
/// entries, which take a file's bytes.
#[derive(Clone, Copy, Debug, PartialEq)]
pub enum Way {
    Opened,
    Counter,
}

pub const WAYS: [Way; 2] = [Way::Opened, Way::Counter];

impl Way {
    /// The operation that asks this question, 1 to 3, this way.
    pub fn operation(self, question: u32) -> u32 {
        match self {
            Way::Opened => 13 + question,
            Way::Counter => 20 + question,
        }
    }

    pub fn name(self) -> &'static str {
        match self {
            Way::Opened => "of an opened sheet",
            Way::Counter => "by the counter",
        }
    }
}

/// Which way, and which question.
pub fn way_of(operation: u32) -> Option<(Way, u32)> {
    match operation {
        14..=16 => Some((Way::Opened, operation - 13)),
        21..=23 => Some((Way::Counter, operation - 20)),
        _ => None,
    }
}

/// All of them, each way's together.
pub fn operations() -> Vec<u32> {
    WAYS.iter().flat_map(|way| (1..=WITNESS).map(|question| way.operation(question))).collect()
}
