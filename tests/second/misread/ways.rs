//! Wrong versions of questions 1 to 3 of an opened sheet and by the counter.

use crate::misread::{wrong, Asked, Misreading, Outcome};
use crate::model::answer::{insist, sound, Answer, Refusal};
use crate::model::limits::{Form, HEADER, MOST_BYTES, MOST_EDGES, MOST_OFFICES, MOST_WORDS, WORD};
use crate::model::sheet::*;
use crate::trial::expect::outcome;
use crate::trial::operation::{way_of, Way};
use crate::trial::request::Request;

/// An operation of these, and the way and the question that it is.
pub struct Asking {
    request: Request,
    way: Way,
    question: u32,
}

const OPENED: &[u32] = &[14, 15, 16];
const COUNTER: &[u32] = &[21, 22, 23];
const PATHS: &[u32] = &[16, 23];
const SPELT: &[u32] = &[23];
const ALL: &[u32] = &[14, 15, 16, 21, 22, 23];

#[rustfmt::skip]
pub const WRONG: [Misreading<Asking>; 20] = [
    wrong("33 after 1 to 17", COUNTER, length_after_sheet),
    wrong("33 after the question's own refusals", COUNTER, length_last),
    wrong("a remainder is dropped", COUNTER, remainder_dropped),
    wrong("what is too long is left to 4 and 5", COUNTER, never_too_long),
    wrong("33 has no place", COUNTER, length_without_place),
    wrong("no bytes are 33", COUNTER, empty_is_33),
    wrong("the most bytes are too many", COUNTER, most_refused),
    wrong("the most words are the most in bytes", COUNTER, most_words_as_bytes),
    wrong("the room is counted in words", SPELT, room_in_words),
    wrong("the path is counted in words", SPELT, counted_in_words),
    wrong("high byte first", SPELT, high_byte_first),
    wrong("no variants", SPELT, without_variants),
    wrong("a remainder is 33", OPENED, remainder_refused),
    wrong("cut to what the header says", OPENED, cut_to_counts),
    wrong("judged when it was opened, place forgotten", OPENED, without_place),
    wrong("the question's own refusals before the sheet's", ALL, numbers_first),
    wrong("kind 1 alone is a ban", PATHS, one_bans),
    wrong("kind 1 is a grant", PATHS, one_grants),
    wrong("the kind's low byte", PATHS, low_byte_of_kind),
    wrong("the deed and the folio swapped", ALL, swapped),
];

impl Asked for Asking {
    fn of(request: &Request) -> Option<Asking> {
        let (way, question) = way_of(request.operation)?;
        Some(Asking { request: request.clone(), way, question })
    }
}

impl Asking {
    fn right(&self) -> Outcome {
        outcome(&self.request, self.way, self.question)
    }

    /// The right answer, but to another request.
    fn instead(&self, change: impl Fn(&mut Request)) -> Outcome {
        let mut request = self.request.clone();
        change(&mut request);
        outcome(&request, self.way, self.question)
    }

    fn with_words(&self, words: &[u32]) -> Outcome {
        self.instead(|request| request.first = bytes_of(words))
    }
}

fn length() -> Refusal {
    Refusal { number: 33, sheet: 1, row: 0 }
}

fn length_after_sheet(asking: &Asking) -> Outcome {
    sound(&words_of(&asking.request.first), 1)?;
    asking.right()
}

fn length_last(asking: &Asking) -> Outcome {
    outcome(&asking.request, Way::Opened, asking.question)?;
    asking.right()
}

fn remainder_dropped(asking: &Asking) -> Outcome {
    asking.with_words(&words_of(&asking.request.first))
}

fn never_too_long(asking: &Asking) -> Outcome {
    if asking.request.first.len() % WORD == 0 {
        sound(&words_of(&asking.request.first), 1)?;
    }
    asking.right()
}

fn length_without_place(asking: &Asking) -> Outcome {
    asking.right().map_err(|refusal| match refusal.number {
        33 => Refusal { sheet: 0, ..refusal },
        _ => refusal,
    })
}

fn empty_is_33(asking: &Asking) -> Outcome {
    match asking.request.first.is_empty() {
        true => Err(length()),
        false => asking.right(),
    }
}

fn shorter_than(asking: &Asking, most: usize) -> Outcome {
    match asking.request.first.len() < most {
        true => asking.right(),
        false => Err(length()),
    }
}

fn most_refused(asking: &Asking) -> Outcome {
    shorter_than(asking, MOST_BYTES)
}

fn most_words_as_bytes(asking: &Asking) -> Outcome {
    shorter_than(asking, MOST_WORDS + 1)
}

/// 25 where the output has fewer words than the path has bytes.
fn room_in_words(asking: &Asking) -> Outcome {
    let path = asking.right()?;
    insist(asking.request.out_len >= path.count as usize, 25)?;
    Ok(path)
}

fn counted_in_words(asking: &Asking) -> Outcome {
    asking.right().map(|path| Answer { count: path.count / WORD as u32, ..path })
}

fn high_byte_first(asking: &Asking) -> Outcome {
    asking.right().map(|path| {
        let written = path.written.iter().map(|word| word.swap_bytes()).collect();
        Answer { written, ..path }
    })
}

fn without_variants(asking: &Asking) -> Outcome {
    asking.right().map(|path| {
        let written: Vec<u32> = path.written.iter().step_by(2).copied().collect();
        Answer { count: (WORD * written.len()) as u32, written, ..path }
    })
}

fn remainder_refused(asking: &Asking) -> Outcome {
    match asking.request.first.len() % WORD {
        0 => asking.right(),
        _ => Err(length()),
    }
}

/// Words after the last row are not seen.
fn cut_to_counts(asking: &Asking) -> Outcome {
    let words = words_of(&asking.request.first);
    if words.len() < HEADER {
        return asking.right();
    }
    let [n, e] = [node_count(&words), edge_count(&words)].map(|count| count.min(MOST_EDGES));
    let length = words.len().min(Form::One.length(n, e));
    asking.with_words(&words[..length])
}

fn without_place(asking: &Asking) -> Outcome {
    asking.right().map_err(|refusal| Refusal { sheet: 0, row: 0, ..refusal })
}

/// An office above the most or a rule above three is seen without the sheet.
fn numbers_first(asking: &Asking) -> Outcome {
    let first = asking.request.numbers[0];
    match asking.question {
        2 => insist((1..=3).contains(&first), 27)?,
        _ => insist((1..=MOST_OFFICES).contains(&first), 20)?,
    }
    asking.right()
}

fn with_kind(asking: &Asking, kind: u32) -> Outcome {
    asking.instead(|request| request.numbers[1] = kind)
}

fn one_bans(asking: &Asking) -> Outcome {
    with_kind(asking, u32::from(asking.request.numbers[1] == 1))
}

fn one_grants(asking: &Asking) -> Outcome {
    let kind = asking.request.numbers[1];
    with_kind(asking, if kind == 1 { 0 } else { kind })
}

fn low_byte_of_kind(asking: &Asking) -> Outcome {
    with_kind(asking, asking.request.numbers[1] & 255)
}

fn swapped(asking: &Asking) -> Outcome {
    let at = if asking.question == 3 { 3 } else { 2 };
    asking.instead(|request| request.numbers.swap(at, at + 1))
}
