//! What the trial program has to reply to a request, word for word, from what the
//! model says.

use crate::model::addition::add;
use crate::model::answer::{answer, is_question, Answer, Refusal};
use crate::model::counter::by_counter;
use crate::model::join::join;
use crate::model::judge::{judge_bytes, judge_words, Verdict};
use crate::model::limits::WORD;
use crate::model::listing;
use crate::model::lookup::{lookup, Wanted};
use crate::model::position::{search, Table};
use crate::model::sheet::{words_of, Row};
use crate::model::take_out::take_out;
use crate::model::trace::{step_by_step, trace, Steps};
use crate::trial::operation::{
    finding, table_of, way_of, Way, CHECK_BYTES, CHECK_WORDS, JOIN, LOOKUP, READ_LISTING, STEPS,
    TAKE_OUT, TRACE, UNKNOWN, WRITE_LISTING,
};
use crate::trial::request::{Expected, Request};

pub fn expect(request: &Request) -> Expected {
    if let Some((way, question)) = way_of(request.operation) {
        return told(request, outcome(request, way, question));
    }
    if let Some(table) = table_of(request.operation) {
        return told(request, of_row(request, table));
    }
    let (first, second) = (words_of(&request.first), words_of(&request.second));
    let (numbers, room) = (&request.numbers, request.out_len);
    match request.operation {
        CHECK_WORDS => checked(request, judge_words(&first)),
        CHECK_BYTES => checked(request, judge_bytes(&request.first)),
        LOOKUP => {
            let found = lookup(wanted(request), &first, &second);
            told(request, found.map(|row| part(&row, room)))
        }
        JOIN => told(request, join(&first, &second, room)),
        TAKE_OUT => told(request, take_out(&first, numbers[0], room)),
        READ_LISTING => told(request, listing::read(&request.first, room)),
        WRITE_LISTING => {
            let text = listing::write(&first, WORD * room);
            told(request, text.map(|text| laid(&text, request.fill)))
        }
        TRACE => told(request, trace(&first, numbers[0], &second, room)),
        STEPS => stepped(request, &step_by_step(&first, numbers[0], &second)),
        question if is_question(question) => {
            told(request, answer(question, numbers, &first, &second, room))
        }
        _ => told(request, Err(Refusal { number: UNKNOWN, sheet: 0, row: 0 })),
    }
}

/// Neither check writes, so the output keeps its fill.
fn checked(request: &Request, verdict: Verdict) -> Expected {
    told(
        request,
        match verdict {
            Verdict { number: 0, .. } => Ok(Answer::default()),
            Verdict { number, row } => Err(Refusal { number, sheet: 1, row }),
        },
    )
}

/// A question asked another way.
pub fn outcome(request: &Request, way: Way, question: u32) -> Result<Answer, Refusal> {
    let (numbers, room) = (&request.numbers, request.out_len);
    match way {
        Way::Opened => answer(question, numbers, &words_of(&request.first), &[], room),
        Way::Counter => by_counter(question, numbers, &request.first, WORD * room),
    }
}

/// A row searched or added.
fn of_row(request: &Request, table: Table) -> Result<Answer, Refusal> {
    let words = words_of(&request.first);
    match request.operation == finding(table) {
        true => search(table, wanted(request), &words),
        false => add(table, row_of(request), &words, request.out_len),
    }
}

/// The row that is to be added.
pub fn row_of(request: &Request) -> Row {
    let [first, second, third, offices, ..] = request.numbers;
    [first, second, third, offices]
}

/// The identity that a lookup names, or what a search does.
pub fn wanted(request: &Request) -> Wanted {
    let [sort, number, variant, ..] = request.numbers;
    [sort, number, variant]
}

/// The whole reply: a refusal leaves the fill, and a success leaves it past its
/// result.
pub fn told(request: &Request, outcome: Result<Answer, Refusal>) -> Expected {
    let mut output = vec![request.fill; request.out_len];
    let head = match outcome {
        Ok(Answer { value, count, extras: [one, other], written }) => {
            output[..written.len()].copy_from_slice(&written);
            [0, 0, 0, value, count, one, other]
        }
        Err(refusal) => [refusal.number, refusal.sheet, refusal.row, 0, 0, 0, 0],
    };
    let [number, sheet, row, value, count, one, other] = head;
    let room = request.out_len as u32;
    Expected { reply: [number, sheet, row, value, count, one, other, room], output }
}

/// The reply to rows that were put one at a time. What was answered before a refused row
/// stays, and an answer without room is counted only.
pub fn stepped(request: &Request, steps: &Steps) -> Expected {
    let (value, count) = (steps.taken.len() as u32, steps.answers.len() as u32);
    let written = steps.answers.iter().copied().take(request.out_len).collect();
    let mut expected = told(request, Ok(Answer { value, count, written, ..Answer::default() }));
    if let Some(Refusal { number, sheet, row }) = steps.refusal {
        expected.reply[..3].copy_from_slice(&[number, sheet, row]);
    }
    expected
}

/// The lookup itself has no output: the trial counts the part that it gives, and
/// copies as much of it as there is room for.
pub fn part(row: &Row, room: usize) -> Answer {
    let written = row.iter().copied().take(room).collect();
    Answer { count: row.len() as u32, written, ..Answer::default() }
}

/// A text in an output of four bytes a word. What its last bytes leave of a word
/// stays as it was filled.
pub fn laid(text: &[u8], fill: u32) -> Answer {
    let kept = &fill.to_le_bytes()[text.len() % WORD..];
    let rest = if kept.len() < WORD { kept } else { &[] };
    let written = words_of(&[text, rest].concat());
    Answer { count: text.len() as u32, written, ..Answer::default() }
}
