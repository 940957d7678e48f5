//! Texts that are listings, or have a fault that is aimed at, or two, or were
//! spoiled without aim.

use crate::generate::outline::Outline;
use crate::generate::pairs;
use crate::generate::random::Random;
use crate::generate::slips::{self, body};
use crate::generate::typing::*;
use crate::model::limits::{MOST_EDGES, MOST_NODES};

/// The faults of a line, in their order, and the one that is looked for after the
/// last line.
pub const LINE_FAULTS: [u32; 4] = [40, 41, 42, 14];
pub const NO_NODE: u32 = 43;

/// A line can have both of these; the first counts.
pub const TWO_IN_ONE: [[u32; 2]; 5] = [[40, 41], [40, 42], [40, 14], [41, 42], [41, 14]];

/// The lines of a small sheet, in any order.
pub fn right(random: &mut Random) -> Vec<Typed> {
    let outline = pairs::whole(random);
    ordered(random, &outline)
}

pub fn ordered(random: &mut Random, outline: &Outline) -> Vec<Typed> {
    let mut lines = typed(outline);
    any_order(random, &mut lines);
    lines
}

/// With enough lines for something to stand before, between and behind.
pub fn roomy(random: &mut Random) -> Vec<Typed> {
    loop {
        let lines = right(random);
        if lines.len() >= 3 {
            return lines;
        }
    }
}

/// One of the lines, or one that is not among them.
fn some_line(random: &mut Random, lines: &[Typed]) -> Typed {
    match random.below(3) {
        0 => {
            let pattern = random.below(PATTERNS.len());
            sample(random, pattern)
        }
        _ => lines[random.below(lines.len())].clone(),
    }
}

/// A number that a line's place cannot have.
fn bad_at(random: &mut Random, pattern: usize, place: usize) -> String {
    match random.below(4) {
        0 if !is_variant(pattern, place) => "0".to_string(),
        _ => bad_number(random),
    }
}

/// With one bad number, and now and then with a second.
fn misspelt(random: &mut Random, line: &Typed) -> Typed {
    let mut line = line.clone();
    for _ in 0..random.pick(&[1, 1, 1, 2]) {
        let place = random.below(line.numbers.len());
        let number = bad_at(random, line.pattern, place);
        line = line.respelt(place, &number);
    }
    line
}

/// A category within itself, whether it stands or not.
fn in_itself(random: &mut Random, lines: &[Typed]) -> Typed {
    let categories: Vec<&Typed> = lines.iter().filter(|line| line.pattern == 1).collect();
    let number = match categories.len() {
        0 => random.odd_word().max(1).to_string(),
        _ => random.pick(&categories).numbers[0].clone(),
    };
    Typed { pattern: WITHIN, numbers: vec![number.clone(), number] }
}

/// An edge line, one end of which at least has no node line among these: nowhere,
/// or as another type or variant.
pub fn without_node(random: &mut Random, lines: &[Typed]) -> Typed {
    loop {
        let pattern = random.between(FIRST_EDGE, PATTERNS.len() - 1);
        let edges: Vec<&Typed> = lines.iter().filter(|line| line.pattern == pattern).collect();
        let mut line = match edges.len() {
            0 => sample(random, pattern),
            _ => random.pick(&edges).clone(),
        };
        let place = random.below(line.numbers.len());
        let numbers = lines.iter().flat_map(|line| line.numbers.iter());
        let numbers: Vec<&str> =
            numbers.map(String::as_str).filter(|&number| number != "0").collect();
        line = match random.below(3) {
            0 => line.respelt(place, &random.odd_word().max(1).to_string()),
            _ if numbers.is_empty() => line,
            _ => line.respelt(place, random.pick(&numbers)),
        };
        let lacks = line.ends().iter().any(|end| !lines.contains(end));
        let itself = pattern == WITHIN && line.numbers[0] == line.numbers[1];
        if lacks && !itself && !lines.contains(&line) {
            return line;
        }
    }
}

/// A line with this fault, to stand behind the first so many lines.
fn faulty(random: &mut Random, number: u32, lines: &[Typed], before: usize) -> Vec<u8> {
    match number {
        40 => {
            let line = some_line(random, lines);
            slips::any(random, &line)
        }
        41 => {
            let line = some_line(random, lines);
            misspelt(random, &line).line()
        }
        42 => lines[random.below(before)].line(),
        14 => in_itself(random, lines).line(),
        _ => without_node(random, lines).line(),
    }
}

/// The lines with one more, behind the first so many.
fn with(lines: &[Typed], at: usize, more: &[u8]) -> Vec<u8> {
    [&text(&lines[..at])[..], more, &text(&lines[at..])].concat()
}

/// One fault, and the line that it is at.
pub fn one_fault(random: &mut Random, lines: &[Typed], number: u32) -> (Vec<u8>, usize) {
    let at = random.between(1, lines.len());
    if number == 40 && random.one_in(6) {
        let mut text = text(lines);
        text.pop();
        return (text, lines.len() - 1);
    }
    let line = faulty(random, number, lines, at);
    (with(lines, at, &line), at)
}

/// Two faults, each in a line of its own, and the line of the first. The second is
/// behind it, but for an end without a node, which may be anywhere.
pub fn two_lines(random: &mut Random, lines: &[Typed], pair: [u32; 2]) -> (Vec<u8>, usize) {
    let at = random.between(1, lines.len());
    let behind = random.between(at, lines.len());
    let one = faulty(random, pair[0], lines, at);
    let other = faulty(random, pair[1], lines, behind);
    if pair[1] == NO_NODE && random.one_in(2) {
        let text = [&other, &with(lines, at, &one)[..]].concat();
        return (text, at + 1);
    }
    let [front, middle, back] =
        [&lines[..at], &lines[at..behind], &lines[behind..]].map(|part| text(part));
    ([front, one, middle, other, back].concat(), at)
}

/// One line that has both of these faults.
pub fn one_line(random: &mut Random, lines: &[Typed], pair: [u32; 2]) -> (Vec<u8>, usize) {
    let at = random.between(1, lines.len());
    let earlier = lines[random.below(at)].clone();
    let line = match pair {
        [40, 41] => {
            let line = some_line(random, lines);
            misspelt(random, &line)
        }
        [40, 42] => earlier,
        [41, 42] => {
            let place = random.below(earlier.numbers.len());
            earlier.respelt(place, &format!("0{}", earlier.numbers[place]))
        }
        [41, _] => misspelt_in_itself(random, lines),
        _ => in_itself(random, lines),
    };
    if pair[0] != 40 {
        return (with(lines, at, &line.line()), at);
    }
    if random.one_in(3) {
        return ([text(lines), body(&line)].concat(), lines.len());
    }
    let line = slips::around(random, &line);
    (with(lines, at, &line), at)
}

/// The same category twice, by the value of its numbers at least.
fn misspelt_in_itself(random: &mut Random, lines: &[Typed]) -> Typed {
    let line = in_itself(random, lines);
    let zero = format!("0{}", line.numbers[0]);
    match random.below(4) {
        0 => line.respelt(0, &zero),
        1 => line.respelt(1, &zero),
        2 => line.respelt(0, &zero).respelt(1, &zero),
        _ => {
            let number = bad_at(random, WITHIN, 0);
            line.respelt(0, &number).respelt(1, &number)
        }
    }
}

/// One row more than a sheet has of nodes, or of edges, and few of the other.
pub fn over(random: &mut Random) -> Vec<Typed> {
    let few = random.between(64, 70);
    let outline = match random.below(3) {
        0 => crowd(random, few, MOST_EDGES + 1),
        _ => crowd(random, MOST_NODES + 1, few),
    };
    ordered(random, &outline)
}

/// What people and bad copies bring: changes of a right text, in a few places.
pub fn edited(random: &mut Random) -> Vec<u8> {
    let lines = roomy(random);
    let mut text = text(&lines);
    for _ in 0..random.pick(&[1, 1, 1, 2, 3]) {
        edit(random, &mut text);
    }
    text
}

const KEYS: &[u8] = b"0123456789 /\n\r\t+-.pecdfiwgba\0\x7F\x80\xFF";

fn edit(random: &mut Random, text: &mut Vec<u8>) {
    if text.is_empty() {
        return;
    }
    let (at, other) = (random.below(text.len()), random.below(text.len()));
    match random.below(10) {
        0 => text[at] = random.pick(KEYS),
        1 => text[at] = random.word() as u8,
        2 => drop(text.remove(at)),
        3 => text.insert(at, random.pick(KEYS)),
        4 => text.swap(at, other),
        5 => text.truncate(at),
        6 => text[at] ^= 1 << random.below(8),
        7 => {
            let piece = text[at.min(other)..at.max(other).min(at.min(other) + 30)].to_vec();
            text.splice(at..at, piece);
        }
        8 => swap_digits(random, text),
        _ => whole_lines(random, text),
    }
}

/// A digit becomes another: most of these are still right lines.
fn swap_digits(random: &mut Random, text: &mut [u8]) {
    let digits: Vec<usize> = (0..text.len()).filter(|&at| text[at].is_ascii_digit()).collect();
    if !digits.is_empty() {
        text[random.pick(&digits)] = b'0' + random.below(10) as u8;
    }
}

/// A line goes, comes twice or elsewhere.
fn whole_lines(random: &mut Random, text: &mut Vec<u8>) {
    let mut lines: Vec<&[u8]> = text.split_inclusive(|&byte| byte == b'\n').collect();
    let (at, other) = (random.below(lines.len()), random.below(lines.len()));
    match random.below(3) {
        0 => drop(lines.remove(at)),
        1 => lines.insert(at, lines[other]),
        _ => lines.swap(at, other),
    }
    *text = lines.concat();
}

/// Bytes without sense: any, or of those that a listing has.
pub fn noise(random: &mut Random) -> Vec<u8> {
    let length = random.below(80);
    match random.below(3) {
        0 => (0..length).map(|_| random.word() as u8).collect(),
        1 => (0..length).map(|_| random.pick(KEYS)).collect(),
        _ => (0..length).map(|_| random.pick(b"in 1/02\nin 1\n")).collect(),
    }
}

const PIECES: [&str; 24] = [
    "person ",
    "category ",
    "deed ",
    "folio ",
    "in ",
    "within ",
    "grant ",
    "ban ",
    "applies ",
    "1",
    "2",
    "0",
    "10",
    "4294967295",
    "4294967296",
    "1 1",
    "1 2",
    "1/0",
    "1 1/0",
    "1/0 1",
    "/",
    " ",
    "\n",
    "\n",
];

/// Pieces of lines, one after the other; most often a number and a line feed come
/// after a word.
pub fn pieces(random: &mut Random) -> Vec<u8> {
    let (words, numbers) = (&PIECES[..9], &PIECES[9..20]);
    let mut text = String::new();
    for _ in 0..random.between(1, 8) {
        match random.below(8) {
            0 => text += random.pick(&PIECES),
            _ => {
                text += random.pick(words);
                text += random.pick(numbers);
                text += "\n";
            }
        }
    }
    text.into_bytes()
}
