//! Sheets damaged on purpose. The damage aims at a number and a row; whether
//! it hits is for the judge to say, and for the coverage table to count.

use crate::generate::make;
use crate::generate::marks::smaller_part;
use crate::generate::random::Random;
use crate::model::limits::*;
use crate::model::marks::all_marks;
use crate::model::place::{first_row, Place, ROW_PLACES};
use crate::model::sheet::*;
use crate::trial::request::MOST_PAYLOAD;

/// Where a row of one of the tables begins.
type Start = fn(&Wreck, usize) -> usize;

/// A valid sheet's words, still addressed by the rows it had when it was
/// whole, so that several faults can be put in one after the other.
struct Wreck {
    words: Vec<u32>,
    nodes: usize,
    edges: usize,
}

impl Wreck {
    fn of(sheet: &Sheet) -> Wreck {
        Wreck { words: sheet.words(), nodes: sheet.nodes.len(), edges: sheet.edges.len() }
    }

    /// How many rows the table has that the number is about.
    fn rows_of(&self, number: u32) -> usize {
        match number {
            ..=10 => self.nodes,
            _ => self.edges,
        }
    }

    fn office_count(&self) -> u32 {
        office_count(&self.words)
    }

    fn node_at(&self, row: usize) -> usize {
        HEADER + NODE_WIDTH * row
    }

    fn edge_at(&self, row: usize) -> usize {
        Form::One.length(self.nodes, row)
    }

    fn row(&self, at: usize) -> Row {
        [self.words[at], self.words[at + 1], self.words[at + 2], self.words[at + 3]]
    }

    fn set_row(&mut self, at: usize, row: Row) {
        self.words[at..at + row.len()].copy_from_slice(&row);
    }

    /// Type and offices of an end; an end that other damage has put out of
    /// the table has neither.
    fn end(&self, row: u32) -> (u32, u32) {
        if row as usize >= self.nodes {
            return (0, 0);
        }
        let [sort, _, _, offices] = self.row(self.node_at(row as usize));
        (sort, offices)
    }
}

/// A sheet damaged so that the number should come first, of a row at this place
/// if it is a row's.
pub fn aimed(random: &mut Random, number: u32, place: Place) -> Vec<u8> {
    match place {
        Place::Uneven => uneven(random),
        Place::TooLong => too_long(random),
        _ => aimed_at_row(random, number, place),
    }
}

/// At any row.
pub fn aimed_anywhere(random: &mut Random, number: u32) -> Vec<u8> {
    let place = random.pick(&ROW_PLACES);
    aimed(random, number, place)
}

/// With several faults or one.
pub fn any(random: &mut Random) -> Vec<u8> {
    if random.one_in(3) {
        return several(random);
    }
    let number = random.between(1, 17) as u32;
    aimed_anywhere(random, number)
}

fn uneven(random: &mut Random) -> Vec<u8> {
    let mut bytes = bytes_of(&make::any(random).words());
    if random.one_in(2) {
        bytes.truncate(bytes.len() - random.between(1, WORD - 1));
    } else {
        let more = random.between(1, WORD - 1);
        bytes.extend((0..more).map(|_| random.word() as u8));
    }
    bytes
}

/// Whole words only, or the other reason for 33 would hide this one.
fn too_long(random: &mut Random) -> Vec<u8> {
    let mut words = make::full(random).words();
    let more = random.pick(&[1, 1, 2, 4, 100, MOST_PAYLOAD / WORD - MOST_WORDS]);
    words.extend((0..more).map(|_| random.odd_word()));
    bytes_of(&words)
}

fn aimed_at_row(random: &mut Random, number: u32, place: Place) -> Vec<u8> {
    let mut wreck = Wreck::of(&make::roomy(random));
    let count = wreck.rows_of(number);
    let first = first_row(number);
    let row = match place {
        Place::First => first,
        Place::Last => count - 1,
        _ => random.between(first + 1, count - 2),
    };
    hurt(random, &mut wreck, number, row);
    bytes_of(&wreck.words)
}

/// Two to six faults. Some sheets keep their header, and some their nodes
/// too: the early refusals would otherwise hide the order of the late ones.
pub fn several(random: &mut Random) -> Vec<u8> {
    let mut wreck = Wreck::of(&make::roomy(random));
    let least = random.pick(&[2, 6, 6, 11, 11]);
    let focus = random.one_in(2).then(|| random.word() as usize);
    let faults = random.between(2, 6);
    let mut numbers: Vec<u32> = (0..faults).map(|_| random.between(least, 17) as u32).collect();
    // Header damage may change the length, and rows must still be there
    // when they are damaged.
    numbers.sort_by_key(|&number| number <= 5);
    for number in numbers {
        let count = wreck.rows_of(number);
        let first = first_row(number);
        let row = match focus {
            Some(row) => (row % count).max(first),
            None => random.between(first, count - 1),
        };
        hurt(random, &mut wreck, number, row);
    }
    bytes_of(&wreck.words)
}

fn hurt(random: &mut Random, wreck: &mut Wreck, number: u32, row: usize) {
    match number {
        1 => wreck.words.truncate(random.below(HEADER)),
        2 => wreck.words[0] = random.pick(&[0, 2, 3, 257, 1 << 16, 1 << 31, u32::MAX]),
        3 => wreck.words[1] = bad_office_count(random),
        4 => hurt_counts(random, wreck),
        5 => hurt_layout(random, wreck),
        6..=10 => hurt_node(random, wreck, number, row),
        _ => hurt_edge(random, wreck, number, row),
    }
}

fn bad_office_count(random: &mut Random) -> u32 {
    random.pick(&[0, MOST_OFFICES + 1, MOST_OFFICES + 2, 257, 258, 1 << 31, u32::MAX])
}

/// Among the bad counts are those that overflow 32 bits back to the right
/// offsets and length.
fn hurt_counts(random: &mut Random, wreck: &mut Wreck) {
    let (at, limit) = random.pick(&[(2, MOST_NODES as u32), (3, MOST_EDGES as u32)]);
    let turns = random.between(1, 3) as u32;
    wreck.words[at] = match random.below(4) {
        0 => limit + 1,
        1 => wreck.words[at].wrapping_add(turns << 30),
        2 => u32::MAX,
        _ => random.odd_word_from(limit + 1),
    };
}

fn hurt_layout(random: &mut Random, wreck: &mut Wreck) {
    match random.below(4) {
        0 => wreck.words[4] = other_than(random, HEADER as u32),
        1 => wreck.words[5] = other_than(random, edge_offset(wreck.nodes) as u32),
        2 => {
            let length = wreck.words.len();
            let less = random.pick(&[1, 2, 3, 4]).min(length - HEADER);
            wreck.words.truncate(length - less);
        }
        _ => {
            let more = random.pick(&[1, 2, 3, 4, 8]);
            wreck.words.extend((0..more).map(|_| random.odd_word()));
        }
    }
}

fn other_than(random: &mut Random, right: u32) -> u32 {
    let near = random.pick(&[1, 2, 4, 1 << 30, 1 << 31]);
    let wrong = match random.below(3) {
        0 => right.wrapping_add(near),
        1 => right.wrapping_sub(near),
        _ => random.odd_word(),
    };
    match wrong {
        _ if wrong == right => right + 1,
        _ => wrong,
    }
}

fn hurt_node(random: &mut Random, wreck: &mut Wreck, number: u32, row: usize) {
    let at = wreck.node_at(row);
    match number {
        6 => wreck.words[at] = random.pick(&[0, 5, 6, 257, 258, 1 << 31, u32::MAX]),
        7 if wreck.words[at] != DEED && random.one_in(2) => {
            wreck.words[at + 2] = random.odd_word_from(1);
        }
        7 => wreck.words[at + 1] = 0,
        8 => wreck.words[at + 3] = bad_mark(random, wreck.office_count()),
        9 => equal_row(random, wreck, Wreck::node_at, row),
        _ => lower_node(random, wreck, row),
    }
}

/// Not within the office count.
pub fn bad_mark(random: &mut Random, office_count: u32) -> u32 {
    let least = all_marks(office_count) + 1;
    match random.below(3) {
        0 => 0,
        1 => random.pick(&[least, least + 1, 257, 1 << 31, u32::MAX]),
        _ => random.odd_word_from(least),
    }
}

/// The marks are no part of a row's identity: they stay, or are drawn anew
/// from the ones the row before allows.
fn equal_row(random: &mut Random, wreck: &mut Wreck, start: Start, row: usize) {
    let mut words = wreck.row(start(wreck, row - 1));
    let several = words[3] <= all_marks(MOST_OFFICES) && words[3].count_ones() > 1;
    if random.one_in(2) && several {
        words[3] = smaller_part(random, words[3]);
    }
    wreck.set_row(start(wreck, row), words);
}

fn lower_node(random: &mut Random, wreck: &mut Wreck, row: usize) {
    let at = wreck.node_at(row);
    let [sort, number, variant, offices] = wreck.row(wreck.node_at(row - 1));
    let deed = sort == DEED;
    match random.below(4) {
        0 if number > 1 => {
            let variant = if deed { random.odd_word() } else { 0 };
            wreck.set_row(at, [sort, number - 1, variant, offices]);
        }
        1 if deed && variant > 0 => wreck.set_row(at, [sort, number, variant - 1, offices]),
        2 if sort > PERSON => {
            wreck.set_row(at, [sort - 1, random.odd_word_from(1), 0, offices]);
        }
        _ => lower_row(random, wreck, Wreck::node_at, row),
    }
}

/// Exchanged with the row before, or a copy of one further up.
fn lower_row(random: &mut Random, wreck: &mut Wreck, start: Start, row: usize) {
    let at = start(wreck, row);
    if row >= 2 && random.one_in(2) {
        let up = random.between(2, row);
        wreck.set_row(at, wreck.row(start(wreck, row - up)));
    } else {
        let before = start(wreck, row - 1);
        let (this, other) = (wreck.row(at), wreck.row(before));
        wreck.set_row(at, other);
        wreck.set_row(before, this);
    }
}

fn hurt_edge(random: &mut Random, wreck: &mut Wreck, number: u32, row: usize) {
    let at = wreck.edge_at(row);
    match number {
        11 => wreck.words[at] = random.pick(&[0, 6, 7, 257, 258, 1 << 31, u32::MAX]),
        12 => {
            let end = random.between(1, 2);
            wreck.words[at + end] = random.odd_word_from(wreck.nodes as u32);
        }
        13 => unfit_ends(random, wreck, at),
        14 => contain_in_itself(random, wreck, at),
        15 => wreck.words[at + 3] = bad_edge_mark(random, wreck, at),
        16 => equal_row(random, wreck, Wreck::edge_at, row),
        _ => lower_row(random, wreck, Wreck::edge_at, row),
    }
}

/// A new end if that makes a misfit, else a kind of another pair of types,
/// which always does.
fn unfit_ends(random: &mut Random, wreck: &mut Wreck, at: usize) {
    let [kind, from, to, _] = wreck.row(at);
    let end = random.between(1, 2);
    let other = random.below(wreck.nodes) as u32;
    let ends = if end == 1 { (other, to) } else { (from, other) };
    let types = Some((wreck.end(ends.0).0, wreck.end(ends.1).0));
    if random.one_in(2) && types != end_types(kind) {
        wreck.words[at + end] = other;
        return;
    }
    let kinds: Vec<u32> = (MEMBER..=APPLIES).filter(|&k| end_types(k) != end_types(kind)).collect();
    wreck.words[at] = random.pick(&kinds);
}

fn contain_in_itself(random: &mut Random, wreck: &mut Wreck, at: usize) {
    let rows = 0..wreck.nodes as u32;
    let categories: Vec<u32> = rows.filter(|&row| wreck.end(row).0 == CATEGORY).collect();
    if !categories.is_empty() {
        let category = random.pick(&categories);
        wreck.set_row(at, [CONTAINED, category, category, wreck.words[at + 3]]);
    }
}

/// An office that the count allows and an end lacks, if there is one.
fn bad_edge_mark(random: &mut Random, wreck: &Wreck, at: usize) -> u32 {
    let [_, from, to, _] = wreck.row(at);
    let common = wreck.end(from).1 & wreck.end(to).1;
    let all = all_marks(wreck.office_count());
    let lacking = all & !common;
    if wreck.office_count() > 1 && lacking != 0 && !random.one_in(4) {
        return if random.one_in(2) { lacking } else { all };
    }
    bad_mark(random, wreck.office_count())
}
