//! The second program's own judgement as a library for C: what the counter's
//! entries, the readers of listings and of one line, the functions that search for a row
//! and add one, and those of the duty desk have to answer, byte for byte.

// Much of the second program's model is not used here.
#![allow(dead_code)]

#[path = "../second/model/mod.rs"]
mod model;

use model::addition::add;
use model::answer::{Answer, Refusal};
use model::counter::by_counter;
use model::judge::{judge_bytes, Verdict};
use model::listing;
use model::position::{key_of, search, Table};
use model::sheet::{bytes_of, Row};
use model::trace::trace;
use model::watch::{step, Watch, WATCH_WORDS};

/// number, sheet, row, value, count
type Reply = [u32; 5];

/// 33 and 1 to 17, and nothing else.
fn checked(file: &[u8]) -> Reply {
    let Verdict { number, row } = judge_bytes(file);
    [number, u32::from(number != 0), row, 0, 0]
}

/// Question 1, 2 or 3: the reply, and the bytes that are written.
fn asked(question: u32, numbers: &[u32], file: &[u8], room: usize) -> (Reply, Vec<u8>) {
    match by_counter(question, numbers, file, room) {
        Ok(Answer { value, count, written, .. }) => ([0, 0, 0, value, count], bytes_of(&written)),
        Err(Refusal { number, sheet, row }) => ([number, sheet, row, 0, 0], Vec::new()),
    }
}

/// Question 0 is the check alone. The numbers are five words, in the order in which
/// the question's entry takes them; the reply has room for five, and `out` for as
/// many bytes as the entry's output.
///
/// # Safety
/// Every pointer has to be good for so many.
#[no_mangle]
pub unsafe extern "C" fn second_judge(
    question: u32,
    file: *const u8,
    length: usize,
    numbers: *const u32,
    out: *mut u8,
    room: usize,
    reply: *mut u32,
) {
    let file = std::slice::from_raw_parts(file, length);
    let numbers = std::slice::from_raw_parts(numbers, 5);
    let (words, bytes) = match question {
        0 => (checked(file), Vec::new()),
        _ => asked(question, numbers, file, room),
    };
    std::slice::from_raw_parts_mut(reply, 5).copy_from_slice(&words);
    std::slice::from_raw_parts_mut(out, room)[..bytes.len()].copy_from_slice(&bytes);
}

/// One line without its line feed: 40 or 41, or which of the nine it is and its numbers
/// as they stand.
fn said(line: &[u8]) -> [u32; 5] {
    let text = [line, b"\n"].concat();
    let Some(shape) = listing::shape(&text) else {
        return [40, 0, 0, 0, 0];
    };
    if listing::entry(&shape).is_none() {
        return [41, 0, 0, 0, 0];
    }
    let form = listing::WORDS.iter().position(|word| word.word == shape.word.word);
    let typed = shape.names.iter().flat_map(|name| [Some(name.number), name.variant]).flatten();
    let mut reply = [0; 5];
    reply[1] = form.map_or(0, |at| at as u32 + 1);
    for (place, digits) in reply[2..].iter_mut().zip(typed) {
        *place = listing::value(digits).unwrap_or(0);
    }
    reply
}

/// The reply has room for four: number, sheet, line, count; `out` has room for as
/// many words as the reader's output.
///
/// # Safety
/// Every pointer has to be good for so many.
#[no_mangle]
pub unsafe extern "C" fn second_read_listing(
    text: *const u8,
    length: usize,
    out: *mut u32,
    room: usize,
    reply: *mut u64,
) {
    let text = std::slice::from_raw_parts(text, length);
    let (numbers, words) = match listing::read(text, room) {
        Ok(Answer { count, written, .. }) => ([0, 0, 0, count], written),
        Err(Refusal { number, sheet, row }) => ([number, sheet, row, 0], Vec::new()),
    };
    std::slice::from_raw_parts_mut(reply, 4).copy_from_slice(&numbers.map(u64::from));
    std::slice::from_raw_parts_mut(out, room)[..words.len()].copy_from_slice(&words);
}

/// The reply has room for five: fault, form, first, second, third.
///
/// # Safety
/// Every pointer has to be good for so many.
#[no_mangle]
pub unsafe extern "C" fn second_read_line(line: *const u8, length: usize, reply: *mut u32) {
    let line = std::slice::from_raw_parts(line, length);
    std::slice::from_raw_parts_mut(reply, 5).copy_from_slice(&said(line));
}

/// Operation 0 searches for a node and 1 for an edge, 2 adds a node and 3 an edge. The row
/// is four words, of which a search takes three; the reply has room for five, and `out`
/// for as many words as the function's output.
///
/// # Safety
/// Every pointer has to be good for so many.
#[no_mangle]
pub unsafe extern "C" fn second_row(
    operation: u32,
    sheet: *const u32,
    length: usize,
    row: *const u32,
    out: *mut u32,
    room: usize,
    reply: *mut u32,
) {
    let words = std::slice::from_raw_parts(sheet, length);
    let row: Row = *row.cast();
    let outcome = match operation {
        0 => search(Table::Nodes, key_of(row), words),
        1 => search(Table::Edges, key_of(row), words),
        2 => add(Table::Nodes, row, words, room),
        _ => add(Table::Edges, row, words, room),
    };
    let (numbers, written) = replied(outcome);
    std::slice::from_raw_parts_mut(reply, 5).copy_from_slice(&numbers);
    std::slice::from_raw_parts_mut(out, room)[..written.len()].copy_from_slice(&written);
}

/// What comes back, and what is written.
fn replied(outcome: Result<Answer, Refusal>) -> (Reply, Vec<u32>) {
    match outcome {
        Ok(Answer { value, count, written, .. }) => ([0, 0, 0, value, count], written),
        Err(Refusal { number, sheet, row }) => ([number, sheet, row, 0, 0], Vec::new()),
    }
}

/// A whole trace. The rows are so many words, five a row, and the last may be cut short;
/// the reply has room for five, and `out` for as many words as the function's output.
///
/// # Safety
/// Every pointer has to be good for so many.
#[no_mangle]
pub unsafe extern "C" fn second_trace(
    sheet: *const u32,
    length: usize,
    timeout: u32,
    rows: *const u32,
    rows_length: usize,
    out: *mut u32,
    room: usize,
    reply: *mut u32,
) {
    let words = std::slice::from_raw_parts(sheet, length);
    let rows = std::slice::from_raw_parts(rows, rows_length);
    let (numbers, written) = replied(trace(words, timeout, rows, room));
    std::slice::from_raw_parts_mut(reply, 5).copy_from_slice(&numbers);
    std::slice::from_raw_parts_mut(out, room)[..written.len()].copy_from_slice(&written);
}

/// One row on a lent table of 129 words, which are then the table after. The reply has
/// room for five.
///
/// # Safety
/// Every pointer has to be good for so many.
#[no_mangle]
pub unsafe extern "C" fn second_step(
    watch: *mut u32,
    sheet: *const u32,
    length: usize,
    timeout: u32,
    row: *const u32,
    row_length: usize,
    reply: *mut u32,
) {
    let table = std::slice::from_raw_parts_mut(watch, WATCH_WORDS);
    let words = std::slice::from_raw_parts(sheet, length);
    let row = std::slice::from_raw_parts(row, row_length);
    let (outcome, after) = step(&Watch::of(table), words, timeout, row);
    std::slice::from_raw_parts_mut(reply, 5).copy_from_slice(&replied(outcome).0);
    table.copy_from_slice(&after.words());
}
