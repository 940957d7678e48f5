//! What the benchmarks ask: of each shape and each operation one request, the same
//! in every run.

use crate::benchmark::sheets::{last_category, sheet, Work};
use crate::generate::full::Shape;
use crate::generate::lists;
use crate::generate::random::Random;
use crate::model::answer::{ask_of, ANSWER, JOINT, LISTED, WITNESS};
use crate::model::closure::witness;
use crate::model::limits::{MOST_EDGES, MOST_NODES, MOST_WORDS, WORD};
use crate::model::listing::{lines, typed};
use crate::model::office::{Office, Side};
use crate::model::sheet::{bytes_of, node_rows, Sheet, APPLIES, FOLIO, MEMBER, PERSON};
use crate::model::survey::*;
use crate::model::trace::{END, MOST_HELD, QUESTION, START};
use crate::trial::operation::{
    ADD_EDGE, ADD_NODE, CHECK_WORDS, FIND_EDGE, FIND_NODE, READ_LISTING, STEPS, TRACE,
    WRITE_LISTING,
};
use crate::trial::request::Request;

/// Room for the longest list that a question can give.
const ROOM: usize = MOST_EDGES;

/// Each operation and what a reader calls it.
pub const OPERATIONS: [(u32, &str); 19] = [
    (CHECK_WORDS, "check"),
    (ANSWER, "1, answer"),
    (JOINT, "2, joint answer"),
    (WITNESS, "3, witness"),
    (LISTED, "4, list is a path"),
    (IN_CATEGORY, "5, persons in a category"),
    (GRANTED, "6, persons with a grant"),
    (NOT_GRANTED, "7, folios without a grant"),
    (BOTH, "8, least Both"),
    (TWO_DEEDS, "9, least pair"),
    (REDUNDANT, "10, redundant edges"),
    (READ_LISTING, "a listing read"),
    (WRITE_LISTING, "a listing written"),
    (FIND_NODE, "a node searched"),
    (FIND_EDGE, "an edge searched"),
    (ADD_NODE, "a node added"),
    (ADD_EDGE, "an edge added"),
    (TRACE, "a trace of 100 rows"),
    (STEPS, "its 100 steps"),
];

/// Minutes for which a start of the trace holds its folio.
const TIMEOUT: u32 = 60;

/// The rows of the trace: 32 starts, 67 questions while the folio is open, and an end.
const ROWS: usize = 100;

pub fn work_of(operation: u32) -> Work {
    match operation {
        BOTH => Work::EveryTriple,
        REDUNDANT => Work::EveryEdge,
        IN_CATEGORY..=TWO_DEEDS => Work::ManyPersons,
        _ => Work::LongPath,
    }
}

/// The joint answer and the trace are asked of two offices that both know the whole sheet.
pub fn request(operation: u32, shape: Shape) -> Request {
    let work = work_of(operation);
    let office_count = if matches!(operation, JOINT | TRACE | STEPS) { 2 } else { 1 };
    let full = sheet(work, shape, office_count);
    let words = match operation {
        ADD_NODE => without_first_node(full).words(),
        ADD_EDGE => without_first_edge(full).words(),
        _ => full.words(),
    };
    let numbers = numbers(operation, last_category(work, shape), first_category(&words));
    let second = match operation {
        LISTED => longest_path(&words, &numbers),
        TRACE | STEPS => bytes_of(&trace_rows()),
        _ => Vec::new(),
    };
    let first = match operation {
        READ_LISTING => shuffled(&words),
        _ => bytes_of(&words),
    };
    let out_len = match operation {
        READ_LISTING | ADD_NODE | ADD_EDGE => MOST_WORDS,
        WRITE_LISTING => typed(&words).len().div_ceil(WORD),
        _ => ROOM,
    };
    Request { operation, numbers, first, second, out_len, fill: 0 }
}

/// The table is full, and each question is question 1's, at the office that is asked first.
fn trace_rows() -> Vec<u32> {
    let starts = (1..=MOST_HELD as u32).map(|folio| [0, START, folio, 0, 0]);
    let questions = std::iter::repeat([1, QUESTION, 1, 1, 1]).take(ROWS - MOST_HELD - 1);
    starts.chain(questions).chain([[1, END, 1, 0, 0]]).flatten().collect()
}

/// The row of the first category.
fn first_category(words: &[u32]) -> u32 {
    node_rows(words).iter().take_while(|row| row[0] == PERSON).count() as u32
}

/// Without the first person, who has one edge, the first: when it is added again, every
/// end goes up.
fn without_first_node(full: Sheet) -> Sheet {
    let mut rest = without_first_edge(full);
    rest.nodes.remove(0);
    for edge in &mut rest.edges {
        (edge[1], edge[2]) = (edge[1] - 1, edge[2] - 1);
    }
    rest
}

fn without_first_edge(mut full: Sheet) -> Sheet {
    full.edges.remove(0);
    full
}

/// The sheet's lines in random order, the same in every run.
fn shuffled(words: &[u32]) -> Vec<u8> {
    let text = typed(words);
    let mut all: Vec<&[u8]> = lines(&text).collect();
    Random::for_case(2026, 1).shuffle(&mut all);
    all.concat()
}

/// So many lines: as many as the longest sheet has rows, one more, and far more.
pub const OVERLONG: [usize; 4] = [2_560, 2_561, 5_000, 10_000];

/// A listing of so many persons in random order, which is refused by 4 in the end.
pub fn overlong(count: usize) -> Request {
    let mut all: Vec<String> = (1..=count).map(|person| format!("person {person}\n")).collect();
    Random::for_case(2026, 2).shuffle(&mut all);
    let first = all.concat().into_bytes();
    let operation = READ_LISTING;
    Request { operation, numbers: [0; 6], first, second: Vec::new(), out_len: MOST_WORDS, fill: 0 }
}

/// Office 1 or rule 1; then the first person, deed and folio, or what else the
/// question names. The last node and the last edge are searched, and the first are added.
fn numbers(operation: u32, last_category: u32, first_category: u32) -> [u32; 6] {
    let last = MOST_NODES as u32 - 1;
    match operation {
        ANSWER | JOINT => [1, 1, 1, 1, 0, 0],
        WITNESS | LISTED => [1, 0, 1, 1, 1, 0],
        IN_CATEGORY => [1, last_category, 0, 0, 0, 0],
        GRANTED => [1, 1, 1, 0, 0, 0],
        TWO_DEEDS => [1, 1, 2, 0, 0, 0],
        FIND_NODE => [FOLIO, 1, 0, 0, 0, 0],
        FIND_EDGE => [APPLIES, last - 1, last, 0, 0, 0],
        ADD_NODE => [PERSON, 1, 0, 1, 0, 0],
        ADD_EDGE => [MEMBER, 0, first_category, 1, 0, 0],
        TRACE | STEPS => [TIMEOUT, 0, 0, 0, 0, 0],
        _ => [1, 0, 0, 0, 0, 0],
    }
}

fn longest_path(words: &[u32], numbers: &[u32]) -> Vec<u8> {
    let path = witness(&Office::of(words, 1), Side::Grant, &ask_of(LISTED, numbers));
    bytes_of(&lists::words(&path.expect("the line leads from end to end")))
}

/// The same request on a sheet whose form is wrong, or a text whose first byte is: it
/// is read, taken for words and replied to in the same way, and refused at once.
pub fn bare(request: &Request) -> Request {
    let mut bare = request.clone();
    bare.first[0] = 0;
    bare
}
