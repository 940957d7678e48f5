//! A series of cases of one kind of operation: first the named ones, which have
//! the document's own answers, then runs of made ones in a fixed order. A case
//! follows from the seed and its number.

use crate::generate::inquiry::Inquiry;
use crate::generate::random::Random;
use crate::model::sheet::bytes_of;
use crate::named::book::Asked;
use crate::trial::expect::expect;
use crate::trial::request::{Expected, Request};

/// kind, name, request, and a slip of this program if there is one
pub type Made = (&'static str, String, Request, Option<String>);

/// Which case is to be made: its place in its run, and its number in a series of
/// this seed.
pub struct Turn {
    pub at: usize,
    pub number: usize,
    pub seed: u64,
}

pub type Maker = fn(&mut Random, &Turn) -> Made;

pub struct Series {
    seed: u64,
    named: Vec<Asked>,
    runs: Vec<(usize, Maker)>,
}

impl Series {
    /// Each run has its count and what makes its cases. `stream` keeps the cases
    /// apart from those of the other series.
    pub fn new(seed: u64, stream: u64, named: Vec<Asked>, runs: Vec<(usize, Maker)>) -> Series {
        Series { seed: seed ^ stream, named, runs }
    }

    pub fn len(&self) -> usize {
        self.named.len() + self.runs.iter().map(|(count, _)| count).sum::<usize>()
    }

    pub fn case(&self, number: usize) -> Made {
        let mut random = Random::for_case(self.seed, number as u64);
        if let Some(asked) = self.named.get(number) {
            return named_case(&mut random, asked);
        }
        let mut at = number - self.named.len();
        for (count, make) in &self.runs {
            if at < *count {
                return make(&mut random, &Turn { at, number, seed: self.seed });
            }
            at -= count;
        }
        panic!("a series of {} cases has no case {number}", self.len())
    }
}

pub fn made(random: &mut Random, kind: &'static str, name: String, inquiry: Inquiry) -> Made {
    (kind, name, inquiry.request(random), None)
}

fn named_case(random: &mut Random, asked: &Asked) -> Made {
    let request = asked.inquiry().request(random);
    let slip = disagreement(asked, &expect(&request));
    ("named", asked.name.clone(), request, slip)
}

fn disagreement(asked: &Asked, expected: &Expected) -> Option<String> {
    let (reply, written) = asked.says.reply();
    let output = bytes_of(&expected.output);
    let agreed = expected.reply[..7] == reply && output.starts_with(&written);
    let why = || format!("the document says {:?}, this program {:?}", asked.says, expected.reply);
    (!agreed).then(why)
}
