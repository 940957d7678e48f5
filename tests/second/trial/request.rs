//! How a request is written, how a reply is read, and how a reply is compared
//! with what was expected.

use std::io::{ErrorKind, Read};

use crate::model::limits::WORD;
use crate::model::sheet::{bytes_of, words_of};
use crate::trial::conversation::{Awaited, Sent};

/// The limits of one request, as the protocol sets them.
pub const MOST_PAYLOAD: usize = 160_000;
pub const MOST_OUTPUT: usize = 40_000;

const REPLY_NAMES: [&str; 8] = [
    "refusal number",
    "place, sheet",
    "place, row",
    "value",
    "count",
    "first extra",
    "second extra",
    "output length",
];

#[derive(Clone, Debug)]
pub struct Request {
    pub operation: u32,
    pub numbers: [u32; 6],
    pub first: Vec<u8>,
    pub second: Vec<u8>,
    pub out_len: usize,
    pub fill: u32,
}

impl Request {
    pub fn bytes(&self) -> Vec<u8> {
        let mut words = vec![self.operation];
        words.extend(self.numbers);
        words.extend([self.first.len() as u32, self.second.len() as u32]);
        words.extend([self.out_len as u32, self.fill, 0]);
        let mut bytes = bytes_of(&words);
        bytes.extend(&self.first);
        bytes.extend(&self.second);
        bytes
    }
}

#[derive(Clone, Debug, PartialEq)]
pub struct Expected {
    pub reply: [u32; 8],
    pub output: Vec<u32>,
}

#[derive(Clone, Debug)]
pub struct Reply {
    pub words: [u32; 8],
    pub output: Vec<u32>,
}

impl Sent for Request {
    fn sent(&self) -> Vec<u8> {
        self.bytes()
    }
}

impl Awaited for Expected {
    fn heard(&self, from: &mut impl Read) -> Result<Vec<String>, String> {
        Ok(compare(self, &read_reply(from, self.output.len())?))
    }
}

/// Takes as many output words as were asked for, whatever reply word 7 says:
/// a wrong word 7 is then one difference and not a lost conversation.
pub fn read_reply(from: &mut impl Read, out_len: usize) -> Result<Reply, String> {
    let all = read_words(from, 8 + out_len)?;
    let mut words = [0; 8];
    words.copy_from_slice(&all[..8]);
    Ok(Reply { words, output: all[8..].to_vec() })
}

/// So many words of a reply.
pub fn read_words(from: &mut impl Read, count: usize) -> Result<Vec<u32>, String> {
    let length = WORD * count;
    let mut bytes = vec![0; length];
    let mut read = 0;
    while read < length {
        match from.read(&mut bytes[read..]) {
            Ok(0) => return Err(format!("it ended after {read} of the {length} bytes of a reply")),
            Ok(more) => read += more,
            Err(error) if error.kind() == ErrorKind::Interrupted => {}
            Err(error) => return Err(format!("the reply cannot be read: {error}")),
        }
    }
    Ok(words_of(&bytes))
}

/// One line for each reply word that differs, and one for the output.
pub fn compare(expected: &Expected, reply: &Reply) -> Vec<String> {
    let mut differences = Vec::new();
    for (at, name) in REPLY_NAMES.iter().enumerate() {
        let (want, got) = (expected.reply[at], reply.words[at]);
        if want != got {
            differences.push(format!("reply word {at} ({name}): expected {want}, got {got}"));
        }
    }
    differences.extend(compare_output(&expected.output, &reply.output));
    differences
}

fn compare_output(want: &[u32], got: &[u32]) -> Option<String> {
    if want.len() != got.len() {
        return Some(format!("output: expected {} words, got {}", want.len(), got.len()));
    }
    let wrong: Vec<usize> = (0..want.len()).filter(|&at| want[at] != got[at]).collect();
    let &at = wrong.first()?;
    Some(format!(
        "output word {at}: expected {}, got {} ({} of {} words differ)",
        want[at],
        got[at],
        wrong.len(),
        want.len()
    ))
}
