//! Sheets spoiled without aim: what a bad copy, a bad disk or a stranger's
//! file would bring.

use crate::generate::make::{self, any_office_count};
use crate::generate::random::Random;
use crate::model::limits::{Form, HEADER, NODE_WIDTH, WORD};
use crate::model::sheet::*;
use crate::trial::request::MOST_PAYLOAD;

pub fn random_words(random: &mut Random) -> Vec<u8> {
    let (nodes, edges) = (2, 1);
    let whole = Form::One.length(nodes, edges);
    let length = if random.one_in(3) { whole } else { random.below(60) };
    let mut words: Vec<u32> = (0..length).map(|_| random.odd_word()).collect();
    // A right beginning of random length leads past some of the early checks;
    // the whole of it belongs to a sheet of a third of these lengths.
    let right = header(any_office_count(random), nodes, edges);
    let kept = random.below(HEADER + 1);
    for (word, right) in words.iter_mut().zip(right).take(kept) {
        *word = right;
    }
    bytes_of(&words)
}

pub fn words_after_header(random: &mut Random) -> Vec<u8> {
    let office_count = any_office_count(random);
    let (n, e) = (random.below(9), random.below(12));
    let wild = random.pick(&[2, 8, 40, 400]);
    let nodes: Vec<Row> = (0..n).map(|row| node_like(random, row as u32, wild)).collect();
    let edges: Vec<Row> = (0..e).map(|_| edge_like(random, n, wild)).collect();
    let mut sheet = Sheet { office_count, nodes, edges };
    if random.one_in(2) {
        sheet.nodes.sort();
        sheet.edges.sort();
    }
    bytes_of(&sheet.words())
}

/// One word in `wild` is any word at all.
fn or_wild(random: &mut Random, wild: usize, word: u32) -> u32 {
    if random.one_in(wild) {
        random.odd_word()
    } else {
        word
    }
}

fn node_like(random: &mut Random, row: u32, wild: usize) -> Row {
    let sort = random.between(PERSON as usize, FOLIO as usize) as u32;
    let variant = if sort == DEED { random.below(3) as u32 } else { 0 };
    let offices = random.pick(&[1, 1, 1, 3]);
    [sort, row + 1, variant, offices].map(|word| or_wild(random, wild, word))
}

fn edge_like(random: &mut Random, n: usize, wild: usize) -> Row {
    let kind = random.between(MEMBER as usize, APPLIES as usize) as u32;
    let (from, to) = (random.below(n + 1) as u32, random.below(n + 1) as u32);
    [kind, from, to, 1].map(|word| or_wild(random, wild, word))
}

pub fn resized(random: &mut Random) -> Vec<u8> {
    let mut bytes = bytes_of(&make::any(random).words());
    let unit = random.pick(&[1, WORD, WORD * NODE_WIDTH]);
    let some = unit * random.between(1, 12);
    if random.one_in(2) {
        bytes.truncate(bytes.len().saturating_sub(some));
    } else if random.one_in(50) {
        bytes.resize(MOST_PAYLOAD, 0);
    } else {
        bytes.extend((0..some).map(|_| random.odd_word() as u8));
    }
    bytes
}

pub fn flipped_bits(random: &mut Random) -> Vec<u8> {
    let mut bytes = bytes_of(&make::any(random).words());
    let flips = random.pick(&[1, 1, 1, 2, 3]);
    for _ in 0..flips {
        let at = random.below(bytes.len());
        bytes[at] ^= 1 << random.below(8);
    }
    bytes
}

/// A bit of it turned, a small number put in its place, or a copy of another.
pub fn one_word_changed(random: &mut Random, mut words: Vec<u32>) -> Vec<u8> {
    let at = random.below(words.len());
    words[at] = match random.below(3) {
        0 => words[at] ^ 1 << random.below(32),
        1 => random.below(9) as u32,
        _ => words[random.below(words.len())],
    };
    bytes_of(&words)
}

pub fn swapped_words(random: &mut Random) -> Vec<u8> {
    let mut words = make::any(random).words();
    let (one, other) = (random.below(words.len()), random.below(words.len()));
    words.swap(one, other);
    bytes_of(&words)
}

pub fn swapped_rows(random: &mut Random) -> Vec<u8> {
    let mut sheet = make::roomy(random);
    let table = either_table(random, &mut sheet);
    let one = random.below(table.len());
    let other = if random.one_in(2) { (one + 1) % table.len() } else { random.below(table.len()) };
    table.swap(one, other);
    bytes_of(&sheet.words())
}

/// Written over another row, or put in between: then the header counts it, or
/// still says what it said before.
pub fn duplicated_row(random: &mut Random) -> Vec<u8> {
    let mut sheet = make::roomy(random);
    let header: Vec<u32> = sheet.words()[..HEADER].to_vec();
    let table = either_table(random, &mut sheet);
    let (row, at) = (random.pick(table), random.below(table.len()));
    let way = random.below(3);
    match way {
        0 => table[at] = row,
        _ => table.insert(at, row),
    }
    let mut words = sheet.words();
    if way == 2 {
        words[..HEADER].copy_from_slice(&header);
    }
    bytes_of(&words)
}

fn either_table<'a>(random: &mut Random, sheet: &'a mut Sheet) -> &'a mut Vec<Row> {
    if random.one_in(2) {
        &mut sheet.nodes
    } else {
        &mut sheet.edges
    }
}
