//! Everything about a request that its operation must not look at.

use crate::generate::random::Random;
use crate::model::limits::WORD;
use crate::trial::request::{Request, MOST_OUTPUT, MOST_PAYLOAD};

pub fn dress(random: &mut Random, operation: u32, first: Vec<u8>) -> Request {
    let numbers = [0; 6].map(|_: u32| random.odd_word());
    let out_len = match random.below(1000) {
        0 => MOST_OUTPUT,
        1..=20 => random.between(13, 600),
        21..=200 => 0,
        _ => random.between(1, 12),
    };
    let second_len = match random.below(1000) {
        0 => MOST_PAYLOAD,
        1..=100 => random.between(1, 70),
        _ => 0,
    };
    let second = (0..second_len).map(|_| random.word() as u8).collect();
    let fill = random.odd_word();
    Request { operation, numbers, first, second, out_len, fill }
}

/// Now and then one to three bytes after the last word, which are dropped.
pub fn remainder(random: &mut Random, payload: &mut Vec<u8>) {
    if random.one_in(8) {
        payload.truncate(payload.len() / WORD * WORD);
        let stray = random.between(1, WORD - 1);
        payload.extend((0..stray).map(|_| random.word() as u8));
        payload.truncate(MOST_PAYLOAD);
    }
}
