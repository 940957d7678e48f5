//! Questions 1 to 4. First the named cases, then a tour of the refusals of a sheet,
//! then the largest sheets and lists, then any: what is asked, at which office,
//! with how much room and with which list.

use crate::cases::large;
use crate::cases::series::{made, Made, Series, Turn};
use crate::generate::desk::{bad_office, Desk};
use crate::generate::dress::remainder;
use crate::generate::inquiry::{in_vain, Inquiry};
use crate::generate::lists::{any_list, stroll, Shelf};
use crate::generate::random::Random;
use crate::generate::{damage, make, scene, scramble};
use crate::model::answer::{ANSWER, JOINT, LISTED, WITNESS};
use crate::model::judge::judge_words;
use crate::model::office::{Ask, Side};
use crate::model::sheet::*;
use crate::named;

const TOUR: usize = LISTED as usize * 17;
const LARGEST: usize = 64;
const VERY_LONG: usize = 12;

const STREAM: u64 = 0x5175_6573_7469_6F6E;

pub fn series(seed: u64, random: usize) -> Series {
    Series::new(
        seed,
        STREAM,
        named::questions::all(),
        vec![
            (TOUR, tour_case),
            (LARGEST, largest_case),
            (VERY_LONG, very_long_case),
            (random, any_case),
        ],
    )
}

fn tour_case(random: &mut Random, turn: &Turn) -> Made {
    let operation = ANSWER + (turn.at as u32) % LISTED;
    let number = 1 + (turn.at as u32) / LISTED;
    let sheet = damage::aimed_anywhere(random, number);
    let inquiry = inquire(random, operation, "question: damaged sheet", sheet);
    made(random, "question: tour", format!("aimed at {number}"), inquiry)
}

fn largest_case(random: &mut Random, turn: &Turn) -> Made {
    let (name, inquiry) = large::on_longest(random, turn.at);
    made(random, "question: largest sheet", name, inquiry)
}

fn very_long_case(random: &mut Random, turn: &Turn) -> Made {
    let inquiry = large::with_very_long_list(random, turn.at);
    made(random, "question: very long list", String::new(), inquiry)
}

fn any_case(random: &mut Random, turn: &Turn) -> Made {
    let operation = ANSWER + (turn.at as u32) % LISTED;
    let (manner, inquiry) = any(random, operation);
    made(random, manner, String::new(), inquiry)
}

/// What is asked of a sheet, and their shares out of 100.
const MANNERS: [(&str, usize); 7] = [
    ("question: a path", 48),
    ("question: anything known", 16),
    ("question: something unknown", 12),
    ("question: bad office or rule", 6),
    ("question: a path elsewhere", 8),
    ("question: damaged sheet", 7),
    ("question: spoiled sheet", 3),
];

pub fn any(random: &mut Random, operation: u32) -> (&'static str, Inquiry) {
    let manner = random.manner(&MANNERS);
    let bytes = match manner {
        "question: damaged sheet" => damage::any(random),
        "question: spoiled sheet" => spoiled(random),
        _ => bytes_of(&whole_sheet(random).words()),
    };
    (manner, inquire(random, operation, manner, bytes))
}

fn whole_sheet(random: &mut Random) -> Sheet {
    match random.below(1000) {
        0 => make::full(random),
        1..=30 => make::any(random),
        _ => scene::small(random),
    }
}

/// Some of these are still sheets, and then have to be answered.
fn spoiled(random: &mut Random) -> Vec<u8> {
    let words = scene::small(random).words();
    match random.below(6) {
        0 => scramble::words_after_header(random),
        1 => scramble::random_words(random),
        2 => scramble::flipped_bits(random),
        _ => scramble::one_word_changed(random, words),
    }
}

pub fn inquire(
    random: &mut Random,
    operation: u32,
    manner: &'static str,
    mut bytes: Vec<u8>,
) -> Inquiry {
    let words = words_of(&bytes);
    remainder(random, &mut bytes);
    if judge_words(&words).number != 0 {
        return in_vain(random, operation, bytes);
    }
    let (office, kind, desk) = fitting_desk(random, manner, &words);
    let ask = desk.ask(random, manner);
    let first = first_number(random, operation, manner, &words, office);
    let shelf = Shelf { here: &desk.here, elsewhere: &desk.elsewhere, side: desk.side, ask };
    let second = if operation == LISTED { any_list(random, &shelf) } else { Vec::new() };
    let room = if operation == WITNESS { desk.room(random, &ask) } else { 0 };
    let numbers = spread(operation, first, kind, &ask);
    Inquiry { operation, numbers, sheet: bytes, second, room }
}

/// Any office and kind; where a path is to be asked for, some that have one,
/// if that is found soon.
fn fitting_desk(random: &mut Random, manner: &str, words: &[u32]) -> (u32, u32, Desk) {
    let mut tries = if manner == "question: a path" { 6 } else { 1 };
    loop {
        let office = random.between(1, office_count(words) as usize) as u32;
        let kind = kind_word(random);
        let desk = Desk::open(words, office, Side::of_word(kind));
        tries -= 1;
        if tries == 0 || stroll(random, &desk.here, desk.side).is_some() {
            return (office, kind, desk);
        }
    }
}

pub fn spread(operation: u32, first: u32, kind: u32, ask: &Ask) -> Vec<u32> {
    let mut numbers = vec![first];
    if operation >= WITNESS {
        numbers.push(kind);
    }
    numbers.extend([ask.person, ask.deed, ask.folio]);
    numbers
}

fn kind_word(random: &mut Random) -> u32 {
    match random.below(4) {
        0 | 1 => 0,
        2 => 1,
        _ => random.odd_word_from(1),
    }
}

fn first_number(
    random: &mut Random,
    operation: u32,
    manner: &str,
    words: &[u32],
    office: u32,
) -> u32 {
    let bad = manner == "question: bad office or rule";
    match operation {
        JOINT if bad => random.pick(&[0, 4, 5, 255, 256, 257, 1 << 31, u32::MAX]),
        JOINT => random.between(1, 3) as u32,
        _ if bad => bad_office(random, office_count(words)),
        _ => office,
    }
}
