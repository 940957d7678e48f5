//! One row on a lent table, as the driver `tests/table.c` is given it. A request is words,
//! low byte first: how many the sheet has, how many the row has, the timeout, the 129 words
//! of the table, the sheet's and the row's. The reply is the five words of the answer and
//! the table after.

use std::io::Read;

use crate::model::answer::{Answer, Refusal};
use crate::model::sheet::bytes_of;
use crate::model::watch::{step, Watch, WATCH_WORDS};
use crate::trial::conversation::{Awaited, Sent};
use crate::trial::request::read_words;

const ANSWER_WORDS: [&str; 5] = ["number", "sheet", "row", "value", "count"];

#[derive(Clone, Debug)]
pub struct Lending {
    pub watch: Watch,
    pub sheet: Vec<u32>,
    pub timeout: u32,
    pub row: Vec<u32>,
}

#[derive(Clone, Debug, PartialEq)]
pub struct Returned {
    pub answer: [u32; 5],
    pub watch: Watch,
}

impl Lending {
    pub fn expected(&self) -> Returned {
        let (outcome, watch) = step(&self.watch, &self.sheet, self.timeout, &self.row);
        Returned::of(outcome, watch)
    }
}

impl Returned {
    pub fn of(outcome: Result<Answer, Refusal>, watch: Watch) -> Returned {
        let answer = match outcome {
            Ok(Answer { value, count, .. }) => [0, 0, 0, value, count],
            Err(Refusal { number, sheet, row }) => [number, sheet, row, 0, 0],
        };
        Returned { answer, watch }
    }
}

impl Sent for Lending {
    fn sent(&self) -> Vec<u8> {
        let counts = [self.sheet.len() as u32, self.row.len() as u32, self.timeout];
        bytes_of(&[&counts[..], &self.watch.words(), &self.sheet, &self.row].concat())
    }
}

impl Awaited for Returned {
    fn heard(&self, from: &mut impl Read) -> Result<Vec<String>, String> {
        let words = read_words(from, ANSWER_WORDS.len() + WATCH_WORDS)?;
        let (answer, watch) = words.split_at(ANSWER_WORDS.len());
        let mut differences = Vec::new();
        for ((name, want), got) in ANSWER_WORDS.iter().zip(self.answer).zip(answer) {
            if want != *got {
                differences.push(format!("{name}: expected {want}, got {got}"));
            }
        }
        for (at, (want, got)) in self.watch.words().iter().zip(watch).enumerate() {
            if want != got {
                differences.push(format!("word {at} of the table: expected {want}, got {got}"));
            }
        }
        Ok(differences)
    }
}
