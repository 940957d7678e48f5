//! A request on its way: what it asks, and of which words. What its operation must
//! not look at is put in last.

use crate::generate::dress::{dress, remainder};
use crate::generate::random::Random;
use crate::model::answer::LISTED;
use crate::model::limits::MOST_OFFICES;
use crate::model::sheet::bytes_of;
use crate::trial::operation::{writes, JOIN, LOOKUP, STEPS, TRACE};
use crate::trial::request::Request;

pub struct Inquiry {
    pub operation: u32,
    pub numbers: Vec<u32>,
    pub sheet: Vec<u8>,
    /// The words of the second payload: a list, another sheet, or the rows of a trace.
    pub second: Vec<u32>,
    pub room: usize,
}

impl Inquiry {
    /// Numbers that are not used, and a second payload that is not, hold
    /// anything.
    pub fn request(self, random: &mut Random) -> Request {
        let mut request = dress(random, self.operation, self.sheet);
        request.numbers[..self.numbers.len()].copy_from_slice(&self.numbers);
        if matches!(self.operation, LISTED | LOOKUP | JOIN | TRACE | STEPS) {
            request.second = bytes_of(&self.second);
            remainder(random, &mut request.second);
        }
        if writes(self.operation) {
            request.out_len = self.room;
        }
        request
    }
}

/// Of a sheet that will be refused: what else is asked must not matter.
pub fn in_vain(random: &mut Random, operation: u32, sheet: Vec<u8>) -> Inquiry {
    let mut numbers = vec![random.below(MOST_OFFICES as usize + 2) as u32];
    numbers.extend((0..4).map(|_| random.odd_word()));
    let second = (0..random.below(12)).map(|_| random.odd_word()).collect();
    Inquiry { operation, numbers, sheet, second, room: random.below(12) }
}
