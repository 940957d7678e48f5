//! Which single lines must have been typed: each slip that makes a line none of the
//! nine, with nothing else wrong in it, and each number at each place.

use crate::model::listing::{entry, shape, value, Shape, WORDS};
use crate::model::sheet::DEED;

/// A slip, and the line as it was meant.
type Mend = fn(&[u8]) -> Vec<u8>;

const SLIPS: [(&str, Mend); 22] = [
    ("no line feed", |line| [line, b"\n"].concat()),
    ("a tab", |line| replaced(line, b"\t", b" ")),
    ("a carriage return", |line| replaced(line, b"\r", b"")),
    ("two spaces", |line| replaced(line, b"  ", b" ")),
    ("a leading space", |line| line.strip_prefix(b" ").unwrap_or(line).to_vec()),
    ("a trailing space", |line| replaced(line, b" \n", b"\n")),
    ("a byte above 127", |line| line.iter().copied().filter(u8::is_ascii).collect()),
    ("a byte 0", |line| replaced(line, b"\0", b"")),
    ("a byte 0 for a space", |line| replaced(line, b"\0", b" ")),
    ("a comma", |line| replaced(line, b",", b" ")),
    ("a plus sign", |line| replaced(line, b"+", b"")),
    ("a minus sign", |line| replaced(line, b"-", b"")),
    ("a letter in a number", |line| replaced(line, b"a\n", b"\n")),
    ("no number", |line| replaced(line, b" \n", b" 1\n")),
    ("no variant", |line| with_variant(line)),
    ("an empty variant", |line| replaced(&replaced(line, b"/\n", b"/1\n"), b"/ ", b"/1 ")),
    ("a second slash", |line| replaced(&replaced(line, b"/1\n", b"\n"), b"/1 ", b" ")),
    ("two slashes", |line| replaced(line, b"//", b"/")),
    ("a variant too many", |line| without_variant(line)),
    ("a number too few", |line| [line.strip_suffix(b"\n").unwrap_or(line), b" 1\n"].concat()),
    ("a number too many", |line| without_last(line)),
    ("a capital letter", |line| line.to_ascii_lowercase()),
];

/// Each of them in a node line and in an edge line, where it can be.
pub fn needed() -> Vec<String> {
    let mut goals = vec!["40, an empty line".to_string(), "40, another word".to_string()];
    for (slip, _) in SLIPS {
        let can_be = |node: bool| !(node && slip == "a number too few");
        goals
            .extend([true, false].into_iter().filter(|&it| can_be(it)).map(|it| slipped(slip, it)));
    }
    for word in &WORDS {
        let variants = word.sorts.iter().flat_map(|&sort| match sort {
            DEED => vec![false, true],
            _ => vec![false],
        });
        for (place, variant) in variants.enumerate() {
            let spelt = SPELT.iter().filter(|&&spelling| !(variant && spelling == "0"));
            goals.extend(spelt.map(|spelling| misspelt(word.word, place, spelling)));
            goals.push(rightly(word.word, place, "4294967295"));
            goals.extend(variant.then(|| rightly(word.word, place, "0")));
        }
    }
    goals
}

fn slipped(slip: &str, node: bool) -> String {
    format!("40, {slip} in {}", if node { "a node line" } else { "an edge line" })
}

/// What a bad number is, by how it is typed.
const SPELT: [&str; 9] = [
    "0",
    "00",
    "a leading zero",
    "4294967296",
    "above 4294967296",
    "20 digits",
    "40 digits",
    "1000 digits",
    "1000 digits and the first is 0",
];

fn misspelt(word: &str, place: usize, spelling: &str) -> String {
    format!("41, number {place} of {word}: {spelling}")
}

fn rightly(word: &str, place: usize, spelling: &str) -> String {
    format!("read, number {place} of {word}: {spelling}")
}

/// The goals that a line meets which is refused with this number, or read.
pub fn met(number: u32, line: &[u8]) -> Vec<String> {
    match (number, shape(line)) {
        (40, _) => not_of_the_nine(line),
        (41, Some(shape)) => bad_number(&shape),
        (_, Some(shape)) => right_numbers(&shape),
        _ => Vec::new(),
    }
}

fn not_of_the_nine(line: &[u8]) -> Vec<String> {
    if line == b"\n" {
        return vec!["40, an empty line".to_string()];
    }
    let mut goals = Vec::new();
    for (slip, mend) in SLIPS {
        let mended = mend(line);
        if let Some(shape) = shape(&mended).filter(|shape| entry(shape).is_some()) {
            goals.push(slipped(slip, shape.word.kind.is_none()));
        }
    }
    let word: Vec<u8> = line.iter().copied().take_while(u8::is_ascii_lowercase).collect();
    let known = WORDS.iter().any(|it| it.word.as_bytes() == word);
    if !known && !word.is_empty() && line.get(word.len()) == Some(&b' ') {
        goals.push("40, another word".to_string());
    }
    goals
}

/// Each number as it is typed, and whether it is a variant.
fn numbers<'a>(shape: &Shape<'a>) -> Vec<(&'a [u8], bool)> {
    let both = shape.names.iter().flat_map(|name| {
        let variant = name.variant.map(|variant| (variant, true));
        [Some((name.number, false)), variant]
    });
    both.flatten().collect()
}

/// Where exactly one number of the line is bad.
fn bad_number(shape: &Shape) -> Vec<String> {
    let is_bad = |typed: &[u8], variant: bool| match value(typed) {
        Some(0) => !variant,
        Some(_) => false,
        None => true,
    };
    let all = numbers(shape);
    let bad: Vec<usize> =
        (0..all.len()).filter(|&place| is_bad(all[place].0, all[place].1)).collect();
    match bad[..] {
        [place] => {
            let spelling = spelling(all[place].0);
            spelling.map(|it| misspelt(shape.word.word, place, it)).into_iter().collect()
        }
        _ => Vec::new(),
    }
}

fn spelling(typed: &[u8]) -> Option<&'static str> {
    let zero = typed[0] == b'0';
    let at = match (typed, typed.len()) {
        (b"0", _) => 0,
        (b"00", _) => 1,
        (b"4294967296", _) => 3,
        (_, 2..=11) if zero => 2,
        (_, 10..=11) => 4,
        (_, 20) if !zero => 5,
        (_, 40) if !zero => 6,
        (_, 1_000) => 7 + usize::from(zero),
        _ => return None,
    };
    Some(SPELT[at])
}

fn right_numbers(shape: &Shape) -> Vec<String> {
    let mut goals = Vec::new();
    for (place, (typed, variant)) in numbers(shape).into_iter().enumerate() {
        match typed {
            b"4294967295" => goals.push(rightly(shape.word.word, place, "4294967295")),
            b"0" if variant => goals.push(rightly(shape.word.word, place, "0")),
            _ => {}
        }
    }
    goals
}

/// Where it stands first.
fn replaced(line: &[u8], old: &[u8], new: &[u8]) -> Vec<u8> {
    match line.windows(old.len()).position(|part| part == old) {
        Some(at) => [&line[..at], new, &line[at + old.len()..]].concat(),
        None => line.to_vec(),
    }
}

/// A deed is the last name, but for the first of an applies line.
fn with_variant(line: &[u8]) -> Vec<u8> {
    match line.starts_with(b"applies ") {
        false => replaced(line, b"\n", b"/1\n"),
        true => {
            let rest = replaced(&line[8..], b" ", b"/1 ");
            [b"applies ", &rest[..]].concat()
        }
    }
}

/// The first variant that is a single digit.
fn without_variant(line: &[u8]) -> Vec<u8> {
    match line.iter().position(|&byte| byte == b'/') {
        Some(at) if at + 1 < line.len() => [&line[..at], &line[at + 2..]].concat(),
        _ => line.to_vec(),
    }
}

fn without_last(line: &[u8]) -> Vec<u8> {
    match line.iter().rposition(|&byte| byte == b' ') {
        Some(at) => [&line[..at], b"\n"].concat(),
        None => line.to_vec(),
    }
}
