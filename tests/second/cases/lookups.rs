//! Lookups in pairs of sheets. First the named cases, then a tour of the refusals of
//! each sheet, then the full sheets, then any: which identity, in which sheets,
//! with how much room.

use crate::cases::series::{made, Made, Series, Turn};
use crate::generate::damage;
use crate::generate::dress::remainder;
use crate::generate::full::{full, Crew, SHAPES};
use crate::generate::inquiry::Inquiry;
use crate::generate::outline::Outline;
use crate::generate::pairs::{self, Pair};
use crate::generate::random::Random;
use crate::generate::scene::OFFICE_COUNTS;
use crate::model::limits::NODE_WIDTH;
use crate::model::lookup::Wanted;
use crate::model::sheet::*;
use crate::named;
use crate::trial::operation::LOOKUP;

/// Each number in each of the sheets, twice.
const TOUR: usize = 2 * 2 * 17;
/// Each shape, beside each kind of sheet, in either order, found and not.
const FULL: usize = SHAPES.len() * 3 * 2 * 2;

const STREAM: u64 = 0x4C6F_6F6B_5570_3131;

pub fn series(seed: u64, random: usize) -> Series {
    Series::new(
        seed,
        STREAM,
        named::lookups::all(),
        vec![(TOUR, tour_case), (FULL, full_case), (random, any_case)],
    )
}

fn tour_case(random: &mut Random, turn: &Turn) -> Made {
    let (number, in_second) = (1 + (turn.at / 4) as u32, turn.at % 2 == 1);
    let bytes = damage::aimed_anywhere(random, number);
    let inquiry = aimed(random, bytes, in_second);
    let sheet = if in_second { 2 } else { 1 };
    made(random, "lookup: tour", format!("aimed at {number} in sheet {sheet}"), inquiry)
}

fn full_case(random: &mut Random, turn: &Turn) -> Made {
    let (name, inquiry) = on_full(random, turn.at);
    made(random, "lookup: full sheet", name, inquiry)
}

fn any_case(random: &mut Random, _: &Turn) -> Made {
    let (manner, relation, inquiry) = any(random);
    made(random, manner, relation, inquiry)
}

/// What is looked up and where, and their shares out of 100.
const MANNERS: [(&str, usize); 9] = [
    ("lookup: in the first", 16),
    ("lookup: in the second", 16),
    ("lookup: in both", 18),
    ("lookup: a neighbour", 16),
    ("lookup: anything", 6),
    ("lookup: damaged first", 8),
    ("lookup: damaged second", 10),
    ("lookup: damaged both", 6),
    ("lookup: spoiled", 4),
];

pub fn any(random: &mut Random) -> (&'static str, String, Inquiry) {
    let manner = random.manner(&MANNERS);
    let (relation, pair) = pairs::any(random);
    let [first, second] = sheets(random, &pair);
    let wanted = wanted(random, manner, &pair);
    (manner, relation.to_string(), search(random, manner, wanted, first, second))
}

/// The same words twice where the outlines are the same, now and then; else the
/// marks differ, and with them perhaps the office counts.
fn sheets(random: &mut Random, pair: &Pair) -> [Vec<u32>; 2] {
    let count = |random: &mut Random| random.pick(&OFFICE_COUNTS);
    let counts = [count(random), count(random)];
    let first = pair.0.marked(random, counts[0]).words();
    if pair.0 == pair.1 && random.one_in(2) {
        return [first.clone(), first];
    }
    [first, pair.1.marked(random, counts[1]).words()]
}

fn search(
    random: &mut Random,
    manner: &str,
    wanted: Wanted,
    first: Vec<u32>,
    second: Vec<u32>,
) -> Inquiry {
    let mut sheets = [first, second];
    pairs::damage(random, manner, &mut sheets);
    let [first, second] = sheets;
    let mut sheet = bytes_of(&first);
    remainder(random, &mut sheet);
    Inquiry { operation: LOOKUP, numbers: wanted.to_vec(), sheet, second, room: room(random) }
}

/// A part is a node row, and each of its words may be the first without room.
fn room(random: &mut Random) -> usize {
    match random.below(12) {
        0..=3 => random.below(NODE_WIDTH),
        4..=7 => NODE_WIDTH,
        8 => random.between(13, 600),
        _ => random.between(NODE_WIDTH + 1, 12),
    }
}

fn wanted(random: &mut Random, manner: &str, pair: &Pair) -> Wanted {
    let in_one = |outline: &Outline| outline.nodes.iter().map(|&(a, b, c)| [a, b, c]).collect();
    let (first, second): (Vec<Wanted>, Vec<Wanted>) = (in_one(&pair.0), in_one(&pair.1));
    let alone = |own: &[Wanted], other: &[Wanted]| -> Vec<Wanted> {
        own.iter().filter(|it| !other.contains(it)).copied().collect()
    };
    let both: Vec<Wanted> = first.iter().filter(|it| second.contains(it)).copied().collect();
    let some = match manner {
        "lookup: in the first" if random.one_in(2) => alone(&first, &second),
        "lookup: in the first" => first.clone(),
        "lookup: in the second" if random.one_in(2) => second.clone(),
        "lookup: in the second" => alone(&second, &first),
        "lookup: in both" => both,
        "lookup: anything" => Vec::new(),
        _ => [&first[..], &second[..]].concat(),
    };
    let known = one_of(random, &some);
    let stray = manner != "lookup: a neighbour" && !random.one_in(6);
    match known {
        None => anything(random),
        Some(known) if manner.starts_with("lookup: in ") || stray => known,
        Some(known) => neighbour(random, known),
    }
}

/// The first, the last or any.
fn one_of(random: &mut Random, some: &[Wanted]) -> Option<Wanted> {
    match (some.len(), random.below(4)) {
        (0, _) => None,
        (_, 0) => Some(some[0]),
        (size, 1) => Some(some[size - 1]),
        _ => Some(random.pick(some)),
    }
}

fn anything(random: &mut Random) -> Wanted {
    let sort = random.pick(&[0, 1, 2, 3, 4, 5, 257, u32::MAX]);
    let variant = if sort == DEED || random.one_in(2) { random.odd_word() } else { 0 };
    [sort, random.odd_word(), variant]
}

/// The same but for one word, or with two of them exchanged.
fn neighbour(random: &mut Random, known: Wanted) -> Wanted {
    let [sort, number, variant] = known;
    match random.below(9) {
        0 => [sort, number.wrapping_add(1), variant],
        1 => [sort, number.wrapping_sub(1), variant],
        2 => [sort, number, variant.wrapping_add(1)],
        3 => [sort, number, variant.wrapping_sub(1)],
        4 => [sort % FOLIO + 1, number, variant],
        5 => [random.pick(&[0, 5, sort + 256, sort | 1 << 31, u32::MAX]), number, variant],
        6 => [sort, 0, variant],
        7 => [sort, number ^ 1 << random.below(32), variant],
        _ => [sort, variant, number],
    }
}

/// Full sheets of every shape, beside a small one, an empty one and another full
/// one, in either order; the rows at their ends, and none.
pub fn on_full(random: &mut Random, turn: usize) -> (String, Inquiry) {
    let shape = SHAPES[turn % SHAPES.len()];
    let turn = turn / SHAPES.len();
    let (beside, swapped, missing) = (turn % 3, turn / 3 % 2 == 1, turn / 6 % 2 == 1);
    let crew = Crew { persons: 100, deeds: 60, folios: 40 };
    let one = full(random, shape, crew);
    let other = match beside {
        0 => pairs::whole(random).marked(random, 1),
        1 => Sheet::new(2, &[], &[]),
        _ => full(random, shape, crew),
    };
    let name = format!("{shape:?}, beside {} nodes", other.nodes.len());
    let rows = one.nodes.iter().chain(&other.nodes);
    let known: Vec<Wanted> = rows.map(|row| [row[0], row[1], row[2]]).collect();
    let mut wanted = one_of(random, &known).unwrap_or_default();
    while missing && known.contains(&wanted) {
        wanted = neighbour(random, wanted);
    }
    let (first, second) = if swapped { (other, one) } else { (one, other) };
    (name, search(random, "lookup: full sheet", wanted, first.words(), second.words()))
}

/// The one sheet is damaged so that this number should come; the other is whole
/// or damaged too.
pub fn aimed(random: &mut Random, bytes: Vec<u8>, in_second: bool) -> Inquiry {
    let (_, pair) = pairs::any(random);
    let [first, second] = sheets(random, &pair);
    let wanted = wanted(random, "lookup: damaged", &pair);
    let bad = words_of(&bytes);
    if in_second {
        return search(random, "lookup: tour", wanted, first, bad);
    }
    let manner = if random.one_in(3) { "lookup: damaged second" } else { "lookup: tour" };
    search(random, manner, wanted, bad, second)
}
