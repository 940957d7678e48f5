//! Wrong versions of writing a listing.

use crate::misread::{wrong, Asked, Misreading, Outcome};
use crate::model::answer::{insist, sound, Answer, Refusal};
use crate::model::contents::Contents;
use crate::model::join::one_office;
use crate::model::limits::WORD;
use crate::model::listing::{typed, write};
use crate::model::sheet::*;
use crate::model::take_out::own;
use crate::trial::expect::laid;
use crate::trial::operation::WRITE_LISTING;
use crate::trial::request::{Request, MOST_OUTPUT};

pub struct Typing {
    words: Vec<u32>,
    room: usize,
    fill: u32,
}

const TYPED: &[u32] = &[WRITE_LISTING];

pub const WRONG: [Misreading<Typing>; 25] = [
    wrong("the variant is left out", TYPED, |it| it.changed(|text| without_variants(&text, ""))),
    wrong("variant 0 is left out", TYPED, |it| it.changed(|text| without_variants(&text, "0"))),
    wrong("every node has a variant", TYPED, |it| it.changed(|text| with_variants(&text))),
    wrong("edges before nodes", TYPED, |it| it.changed(|text| edges_first(&text))),
    wrong("nodes alone", TYPED, |it| it.changed(|text| kept(&text, |line| !is_edge(line)))),
    wrong("edges alone", TYPED, |it| it.changed(|text| kept(&text, is_edge))),
    wrong("lines sorted as texts", TYPED, |it| it.changed(|text| sorted(&text))),
    wrong("the last row first", TYPED, |it| it.changed(|text| turned(&text))),
    wrong("no line feed at the end", TYPED, |it| it.changed(|text| text.trim_end().to_string())),
    wrong("a carriage return", TYPED, |it| it.changed(|text| text.replace('\n', "\r\n"))),
    wrong("an empty line at the end", TYPED, |it| it.changed(|text| text + "\n")),
    wrong("grants and bans swapped", TYPED, |it| it.changed(|text| swapped(&text))),
    wrong("ends swapped", TYPED, |it| it.changed(|text| ends_swapped(&text))),
    wrong("ends by row", TYPED, ends_by_row),
    wrong("a sheet of two offices is written", TYPED, any_office),
    wrong("office 1 of two is written", TYPED, first_office),
    wrong("28 has no place", TYPED, without_place),
    wrong("28 before the sheet's own faults", TYPED, office_first),
    wrong("25 before 28", TYPED, room_first),
    wrong("the room is counted in words", TYPED, room_in_words),
    wrong("the text is counted in words", TYPED, counted_in_words),
    wrong("an exact room is too short", TYPED, exact_refused),
    wrong("what fits is written", TYPED, cut_to_fit),
    wrong("high byte first", TYPED, high_byte_first),
    wrong("the rest of the last word is cleared", TYPED, cleared),
];

impl Asked for Typing {
    fn of(request: &Request) -> Option<Typing> {
        let (words, room) = (words_of(&request.first), request.out_len);
        let own = request.operation == WRITE_LISTING;
        own.then_some(Typing { words, room, fill: request.fill })
    }
}

impl Typing {
    fn right(&self) -> Result<Vec<u8>, Refusal> {
        write(&self.words, WORD * self.room)
    }

    fn fitting(&self, text: Vec<u8>) -> Outcome {
        insist(WORD * self.room >= text.len(), 25)?;
        Ok(laid(&text, self.fill))
    }

    /// The right text, changed.
    fn changed(&self, change: impl Fn(String) -> String) -> Outcome {
        let text = write(&self.words, usize::MAX)?;
        let text = String::from_utf8(text).unwrap_or_default();
        self.fitting(change(text).into_bytes())
    }
}

/// Of variants that are typed so, or of all where that is nothing.
fn without_variants(text: &str, which: &str) -> String {
    let name = |name: &str| match name.split_once('/') {
        Some((number, variant)) if which.is_empty() || variant == which => number.to_string(),
        _ => name.to_string(),
    };
    by_name(text, name)
}

fn with_variants(text: &str) -> String {
    by_name(text, |name| match name.contains('/') {
        true => name.to_string(),
        false => format!("{name}/0"),
    })
}

fn by_name(text: &str, change: impl Fn(&str) -> String) -> String {
    let line = |line: &str| {
        let mut parts = line.split(' ');
        let word = parts.next().unwrap_or_default().to_string();
        [word].into_iter().chain(parts.map(&change)).collect::<Vec<String>>().join(" ") + "\n"
    };
    text.lines().map(line).collect()
}

fn is_edge(line: &str) -> bool {
    line.matches(' ').count() == 2
}

fn kept(text: &str, keep: impl Fn(&str) -> bool) -> String {
    text.split_inclusive('\n').filter(|line| keep(line)).collect()
}

fn edges_first(text: &str) -> String {
    kept(text, is_edge) + &kept(text, |line| !is_edge(line))
}

fn sorted(text: &str) -> String {
    let mut lines: Vec<&str> = text.split_inclusive('\n').collect();
    lines.sort();
    lines.concat()
}

fn turned(text: &str) -> String {
    text.split_inclusive('\n').rev().collect()
}

fn swapped(text: &str) -> String {
    text.replace("grant ", "#").replace("ban ", "grant ").replace('#', "ban ")
}

fn ends_swapped(text: &str) -> String {
    let line = |line: &str| match line.split(' ').collect::<Vec<&str>>()[..] {
        [word, from, to] => format!("{word} {to} {from}\n"),
        _ => format!("{line}\n"),
    };
    text.lines().map(line).collect()
}

fn ends_by_row(typing: &Typing) -> Outcome {
    typing.changed(|text| {
        let mut edges = edge_rows(&typing.words);
        let line = |line: &str| match line.split_once(' ') {
            Some((word, _)) if is_edge(line) => {
                let row = edges.next().unwrap_or(&[0; 4]);
                format!("{word} {} {}\n", row[1], row[2])
            }
            _ => format!("{line}\n"),
        };
        text.lines().map(line).collect()
    })
}

fn any_office(typing: &Typing) -> Outcome {
    sound(&typing.words, 1)?;
    typing.fitting(typed(&typing.words))
}

fn first_office(typing: &Typing) -> Outcome {
    sound(&typing.words, 1)?;
    typing.fitting(typed(&own(&Contents::of(&typing.words), 1).words(1)))
}

fn without_place(typing: &Typing) -> Outcome {
    let text = typing.right().map_err(|refusal| match refusal.number {
        28 => Refusal { sheet: 0, ..refusal },
        _ => refusal,
    });
    Ok(laid(&text?, typing.fill))
}

fn office_first(typing: &Typing) -> Outcome {
    if typing.words.len() > 1 {
        one_office(&typing.words, 1)?;
    }
    Ok(laid(&typing.right()?, typing.fill))
}

/// Room for one line at least.
fn room_first(typing: &Typing) -> Outcome {
    sound(&typing.words, 1)?;
    insist(typing.room > 1 || node_count(&typing.words) == 0, 25)?;
    Ok(laid(&typing.right()?, typing.fill))
}

fn room_in_words(typing: &Typing) -> Outcome {
    let text = typing.right()?;
    insist(typing.room >= text.len(), 25)?;
    Ok(laid(&text, typing.fill))
}

fn counted_in_words(typing: &Typing) -> Outcome {
    let answer = laid(&typing.right()?, typing.fill);
    Ok(Answer { count: answer.written.len() as u32, ..answer })
}

fn exact_refused(typing: &Typing) -> Outcome {
    let text = typing.right()?;
    insist(WORD * typing.room > text.len(), 25)?;
    Ok(laid(&text, typing.fill))
}

fn cut_to_fit(typing: &Typing) -> Outcome {
    let mut answer = laid(&write(&typing.words, WORD * MOST_OUTPUT)?, typing.fill);
    answer.written.truncate(typing.room);
    Ok(answer)
}

fn high_byte_first(typing: &Typing) -> Outcome {
    let answer = laid(&typing.right()?, typing.fill);
    let written = answer.written.iter().map(|word| word.swap_bytes()).collect();
    Ok(Answer { written, ..answer })
}

fn cleared(typing: &Typing) -> Outcome {
    Ok(laid(&typing.right()?, 0))
}
