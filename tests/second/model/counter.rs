//! Questions 1 to 3 by the counter's entries, which take a file's bytes and
//! answer as the bare words do, but for the length of the file and the room.

use crate::model::answer::{answer, insist, Answer, Refusal, WITNESS};
use crate::model::judge::{judge_bytes, Verdict};
use crate::model::sheet::{bytes_of, words_of};

/// By the counter's entry, with room for so many bytes. 33 comes before the
/// sheet's own faults, and at the same place as those of no row.
pub fn by_counter(
    question: u32,
    numbers: &[u32],
    file: &[u8],
    room: usize,
) -> Result<Answer, Refusal> {
    if let Verdict { number: 33, row } = judge_bytes(file) {
        return Err(Refusal { number: 33, sheet: 1, row });
    }
    let answer = answer(question, numbers, &words_of(file), &[], usize::MAX)?;
    match question {
        WITNESS => spelt(answer, room),
        _ => Ok(answer),
    }
}

/// The path as bytes, low byte first, where so many have room. The trial's
/// output is four of them a word.
fn spelt(path: Answer, room: usize) -> Result<Answer, Refusal> {
    let bytes = bytes_of(&path.written);
    insist(room >= bytes.len(), 25)?;
    Ok(Answer { count: bytes.len() as u32, written: words_of(&bytes), ..path })
}
