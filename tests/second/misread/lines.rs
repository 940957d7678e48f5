//! Wrong versions of reading the lines of a listing: 40, 41, 42 and 14, and where
//! they are.

use crate::misread::listings::{listing, own_line, Reading};
use crate::misread::{Misreading, Outcome};
use crate::model::answer::Refusal;
use crate::model::listing::*;

pub const WRONG: [Misreading<Reading>; 41] = [
    listing("a leading zero is let by", |it| it.mended(unzeroed)),
    listing("00 is let by as a variant", |it| it.mended(zero_variant)),
    listing("0 is let by as a number", |it| it.valued(|typed, _| value(typed))),
    listing("variant 0 is refused", |it| it.valued(|typed, _| number(typed, false))),
    listing("4294967295 is too large", |it| it.valued(below_most)),
    listing("what is too large wraps", |it| it.valued(wrapped)),
    listing("what is too large is the most", |it| it.valued(clamped)),
    listing("a number is looked at in its first ten digits", |it| it.valued(ten_digits)),
    listing("the variant is not looked at for 41", |it| it.valued(any_variant)),
    listing("41 before 40", |it| it.by(numbers_first)),
    listing("40 of all lines before 41 of any", |it| it.in_phases(&[&[40], &[41], &[42, 14]])),
    listing("40 and 41 of all before 42 of any", |it| it.in_phases(&[&[40, 41], &[42, 14]])),
    listing("42 of all lines before 40 of any", |it| it.in_phases(&[&[42], &[40, 41, 14]])),
    listing("14 of all lines before 42 of any", |it| it.in_phases(&[&[40, 41], &[14], &[42]])),
    listing("14 after the last line", |it| it.in_phases(&[&[40, 41, 42], &[14]])),
    listing("42 before 41", |it| it.remembering(repeats)),
    listing("14 before 41", |it| it.by(itself_first)),
    listing("the last line may lack its line feed", |it| it.instead(ended)),
    listing("a carriage return is let by", |it| it.mended(|line| replaced(line, b"\r\n", b"\n"))),
    listing("a tab is a space", |it| it.mended(|line| replaced(line, b"\t", b" "))),
    listing("two spaces are one", |it| it.mended(|line| replaced(line, b"  ", b" "))),
    listing("a trailing space is let by", |it| it.mended(|line| replaced(line, b" \n", b"\n"))),
    listing("a leading space is let by", |it| it.mended(unindented)),
    listing("an empty line is left out", |it| it.instead(without_empty)),
    listing("capital letters are let by", |it| it.mended(|line| line.to_ascii_lowercase())),
    listing("a plus sign is let by", |it| it.mended(|line| replaced(line, b"+", b""))),
    listing("bytes above 127 are left out", |it| it.mended(ascii)),
    listing("a line ends at a byte 0", |it| it.mended(up_to_zero)),
    listing("a missing variant is 0", |it| it.mended(with_variant)),
    listing("a number too many is not looked at", |it| it.mended(without_last)),
    listing("no bytes are no listing", no_bytes),
    listing("lines are counted from 1", from_one),
    listing("the place is in sheet 1", |it| it.placed(|refusal| Refusal { sheet: 1, ..refusal })),
    listing("no place", |it| it.placed(|refusal| Refusal { row: 0, ..refusal })),
    listing("42 is placed at the first of the two", first_of_two),
    listing("42 for the line right before alone", |it| it.remembering(next_alone)),
    listing("42 for nodes alone", |it| it.remembering(nodes_alone)),
    listing("42 for edges alone", |it| it.remembering(edges_alone)),
    listing("42 for a deed's number alone", |it| it.remembering(by_number)),
    listing("a repeated row is let by", |it| it.remembering(|line, _| own_line(line))),
    listing("a category within itself is let by", |it| it.by(let_by)),
];

/// The right one.
fn number(typed: &[u8], variant: bool) -> Option<u32> {
    value(typed).filter(|&number| number != 0 || variant)
}

fn below_most(typed: &[u8], variant: bool) -> Option<u32> {
    number(typed, variant).filter(|&number| number < u32::MAX)
}

/// As digits are added up in 32 bits.
fn wrapped(typed: &[u8], variant: bool) -> Option<u32> {
    let digit = |sum: u32, byte: &u8| sum.wrapping_mul(10).wrapping_add(u32::from(byte - b'0'));
    let value = typed.iter().fold(0, digit);
    let zero = typed.len() > 1 && typed[0] == b'0';
    (!zero && (value != 0 || variant)).then_some(value)
}

fn clamped(typed: &[u8], variant: bool) -> Option<u32> {
    let large = typed[0] != b'0' && value(typed).is_none();
    number(typed, variant).or(large.then_some(u32::MAX))
}

fn ten_digits(typed: &[u8], variant: bool) -> Option<u32> {
    number(&typed[..typed.len().min(10)], variant)
}

fn any_variant(typed: &[u8], variant: bool) -> Option<u32> {
    match variant {
        true => Some(number(typed, variant).unwrap_or(0)),
        false => number(typed, variant),
    }
}

/// Zeros before another digit are left out, wherever digits stand.
fn unzeroed(line: &[u8]) -> Vec<u8> {
    let mut plain: Vec<u8> = Vec::new();
    for (at, &byte) in line.iter().enumerate() {
        let inside = plain.last().is_some_and(u8::is_ascii_digit);
        let more = line.get(at + 1).is_some_and(u8::is_ascii_digit);
        if byte != b'0' || inside || !more {
            plain.push(byte);
        }
    }
    plain
}

/// Zeros after a slash are one.
fn zero_variant(line: &[u8]) -> Vec<u8> {
    let mut plain = line.to_vec();
    while plain.windows(3).any(|part| part == b"/00") {
        plain = replaced(&plain, b"/00", b"/0");
    }
    plain
}

/// A bad number anywhere among the digits of a line.
fn numbers_first(line: &[u8]) -> Result<Entry, u32> {
    let mut runs = line.split(|byte| !byte.is_ascii_digit()).filter(|run| !run.is_empty());
    match runs.any(|run| value(run).is_none()) {
        true => Err(41),
        false => own_line(line),
    }
}

fn itself_first(line: &[u8]) -> Result<Entry, u32> {
    match own_line(line) {
        Err(41) if matches!(own_line(&unzeroed(line)), Err(14)) => Err(14),
        entry => entry,
    }
}

/// By value, so that a leading zero does not hide it.
fn repeats(line: &[u8], before: &[Entry]) -> Result<Entry, u32> {
    let entry = own_line(line);
    match own_line(&unzeroed(line)) {
        Ok(same) if before.contains(&same) => Err(42),
        _ => entry,
    }
}

fn ended(text: &[u8]) -> Vec<u8> {
    match text.last() {
        Some(b'\n') | None => text.to_vec(),
        _ => [text, b"\n"].concat(),
    }
}

fn unindented(line: &[u8]) -> Vec<u8> {
    line.strip_prefix(b" ").unwrap_or(line).to_vec()
}

fn without_empty(text: &[u8]) -> Vec<u8> {
    lines(text).filter(|line| *line != b"\n").collect::<Vec<_>>().concat()
}

fn ascii(line: &[u8]) -> Vec<u8> {
    line.iter().copied().filter(u8::is_ascii).collect()
}

fn no_bytes(reading: &Reading) -> Outcome {
    match reading.text.is_empty() {
        true => Err(at_line(40, 0)),
        false => reading.right(),
    }
}

fn from_one(reading: &Reading) -> Outcome {
    reading.placed(|refusal| Refusal { row: refusal.row + 1, ..refusal })
}

/// Everywhere.
fn replaced(text: &[u8], old: &[u8], new: &[u8]) -> Vec<u8> {
    let (mut plain, mut at) = (Vec::new(), 0);
    while at < text.len() {
        match text[at..].starts_with(old) {
            true => {
                plain.extend(new);
                at += old.len();
            }
            false => {
                plain.push(text[at]);
                at += 1;
            }
        }
    }
    plain
}

fn up_to_zero(line: &[u8]) -> Vec<u8> {
    match line.iter().position(|&byte| byte == 0) {
        Some(at) => [&line[..at], b"\n"].concat(),
        None => line.to_vec(),
    }
}

/// Any name that would be a deed's.
fn with_variant(line: &[u8]) -> Vec<u8> {
    let names = line.iter().enumerate().filter(|(_, &byte)| byte == b' ' || byte == b'\n');
    let ends: Vec<usize> = names.map(|(at, _)| at).collect();
    let mended = ends.into_iter().map(|at| [&line[..at], b"/0", &line[at..]].concat());
    let mut right = mended.filter(|line| shape(line).is_some());
    right.next().unwrap_or_else(|| line.to_vec())
}

fn without_last(line: &[u8]) -> Vec<u8> {
    let cut = line.iter().rposition(|&byte| byte == b' ').map(|at| [&line[..at], b"\n"].concat());
    cut.filter(|line| shape(line).is_some()).unwrap_or_else(|| line.to_vec())
}

fn first_of_two(reading: &Reading) -> Outcome {
    reading.right().map_err(|refusal| {
        let all: Vec<&[u8]> = lines(&reading.text).collect();
        let first = all.iter().position(|line| *line == all[refusal.row as usize]);
        match refusal.number {
            42 => at_line(42, first.unwrap_or(0)),
            _ => refusal,
        }
    })
}

/// 42 for those of the earlier rows that count.
fn matched(line: &[u8], before: &[Entry], counts: impl Fn(&Entry) -> bool) -> Result<Entry, u32> {
    let entry = own_line(line)?;
    match before.contains(&entry) && counts(&entry) {
        true => Err(42),
        false => Ok(entry),
    }
}

fn next_alone(line: &[u8], before: &[Entry]) -> Result<Entry, u32> {
    matched(line, &before[before.len().saturating_sub(1)..], |_| true)
}

fn nodes_alone(line: &[u8], before: &[Entry]) -> Result<Entry, u32> {
    matched(line, before, |entry| matches!(entry, Entry::Node(_)))
}

fn edges_alone(line: &[u8], before: &[Entry]) -> Result<Entry, u32> {
    matched(line, before, |entry| matches!(entry, Entry::Edge(_)))
}

fn by_number(line: &[u8], before: &[Entry]) -> Result<Entry, u32> {
    let entry = own_line(line)?;
    let bare = |entry: &Entry| match *entry {
        Entry::Node((sort, number, _)) => Entry::Node((sort, number, 0)),
        edge => edge,
    };
    match before.iter().any(|other| bare(other) == bare(&entry)) {
        true => Err(42),
        false => Ok(entry),
    }
}

/// The line without 14.
fn let_by(line: &[u8]) -> Result<Entry, u32> {
    match own_line(line) {
        Err(14) => shape(line).and_then(|shape| entry(&shape)).ok_or(14),
        entry => entry,
    }
}
