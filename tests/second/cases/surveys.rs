//! Questions 5 to 10. First the named cases, then a tour of the refusals of a sheet,
//! then the full sheets, then any: what is asked, at which office, and with how
//! much room.

use crate::cases::series::{made, Made, Series, Turn};
use crate::generate::desk::{bad_office, one, room_for, Desk};
use crate::generate::dress::remainder;
use crate::generate::full::{full, Crew, Shape, SHAPES};
use crate::generate::inquiry::{in_vain, Inquiry};
use crate::generate::random::Random;
use crate::generate::{damage, make, memberships, scene, scramble, throng};
use crate::model::answer::{answer, Answer};
use crate::model::judge::judge_words;
use crate::model::office::Side;
use crate::model::reach::Reach;
use crate::model::sheet::*;
use crate::model::survey::*;
use crate::named;
use crate::trial::request::MOST_OUTPUT;

/// Questions of this kind.
const KINDS: usize = 6;
const TOUR: usize = KINDS * 17;
/// Each question once on each shape.
const FULL: usize = KINDS * SHAPES.len();

const STREAM: u64 = 0x5375_7276_6579_7321;

pub fn series(seed: u64, random: usize) -> Series {
    Series::new(
        seed,
        STREAM,
        named::surveys::all(),
        vec![(TOUR, tour_case), (FULL, full_case), (random, any_case)],
    )
}

fn tour_case(random: &mut Random, turn: &Turn) -> Made {
    let operation = IN_CATEGORY + (turn.at % KINDS) as u32;
    let number = 1 + (turn.at / KINDS) as u32;
    let sheet = damage::aimed_anywhere(random, number);
    let inquiry = inquire(random, operation, "survey: damaged sheet", sheet);
    made(random, "survey: tour", format!("aimed at {number}"), inquiry)
}

fn full_case(random: &mut Random, turn: &Turn) -> Made {
    let (name, inquiry) = on_full(random, turn.at);
    made(random, "survey: full sheet", name, inquiry)
}

fn any_case(random: &mut Random, turn: &Turn) -> Made {
    let operation = IN_CATEGORY + (turn.at % KINDS) as u32;
    let (manner, inquiry) = any(random, operation);
    made(random, manner, String::new(), inquiry)
}

/// What is asked of a sheet, and their shares out of 100.
const MANNERS: [(&str, usize); 6] = [
    ("survey: something to find", 52),
    ("survey: anything known", 18),
    ("survey: something unknown", 12),
    ("survey: bad office", 5),
    ("survey: damaged sheet", 8),
    ("survey: spoiled sheet", 5),
];

pub fn any(random: &mut Random, operation: u32) -> (&'static str, Inquiry) {
    let manner = random.manner(&MANNERS);
    // Where something is to be found, a few sheets are tried.
    let mut tries = if manner == MANNERS[0].0 { 4 } else { 1 };
    loop {
        let bytes = match manner {
            "survey: damaged sheet" => not_large(random, damage::any),
            "survey: spoiled sheet" => not_large(random, spoiled),
            _ => bytes_of(&whole_sheet(random, operation).words()),
        };
        let inquiry = inquire(random, operation, manner, bytes);
        tries -= 1;
        if tries == 0 || finds(&inquiry) {
            return (manner, inquiry);
        }
    }
}

fn finds(inquiry: &Inquiry) -> bool {
    let words = words_of(&inquiry.sheet);
    let found = answer(inquiry.operation, &inquiry.numbers, &words, &[], MOST_OUTPUT);
    found.is_ok_and(|answer| !answer.written.is_empty())
}

/// Memberships are what question 10 alone is about.
fn whole_sheet(random: &mut Random, operation: u32) -> Sheet {
    match random.below(20) {
        0 => make::small(random),
        1..=4 => scene::small(random),
        5..=11 if operation == REDUNDANT => memberships::small(random),
        _ => throng::small(random),
    }
}

/// A large sheet may be refused, but if it is not, its many triples would take
/// the trial too long.
fn not_large(random: &mut Random, make: fn(&mut Random) -> Vec<u8>) -> Vec<u8> {
    loop {
        let bytes = make(random);
        let words = words_of(&bytes);
        if words.len() < 400 || judge_words(&words).number != 0 {
            return bytes;
        }
    }
}

/// Some of these are still sheets, and then have to be answered.
fn spoiled(random: &mut Random) -> Vec<u8> {
    let words = throng::small(random).words();
    match random.below(5) {
        0 => scramble::words_after_header(random),
        1 => scramble::random_words(random),
        _ => scramble::one_word_changed(random, words),
    }
}

pub fn inquire(random: &mut Random, operation: u32, manner: &str, mut bytes: Vec<u8>) -> Inquiry {
    let words = words_of(&bytes);
    remainder(random, &mut bytes);
    if judge_words(&words).number != 0 {
        return in_vain(random, operation, bytes);
    }
    let office = random.between(1, office_count(&words) as usize) as u32;
    let desk = Desk::open(&words, office, Side::Grant);
    let asked = match operation {
        IN_CATEGORY => vec![a_category(random, &desk, manner)],
        GRANTED => a_deed_and_folio(random, &desk, manner),
        TWO_DEEDS => deeds(random, &desk, manner),
        _ => Vec::new(),
    };
    let asked_at = match manner {
        "survey: bad office" => bad_office(random, office_count(&words)),
        _ => office,
    };
    let numbers: Vec<u32> = [asked_at].into_iter().chain(asked).collect();
    let room = room(random, operation, &numbers, &words);
    Inquiry { operation, numbers, sheet: bytes, second: Vec::new(), room }
}

/// About the length of what would be written, whatever it is.
fn room(random: &mut Random, operation: u32, numbers: &[u32], words: &[u32]) -> usize {
    let length = match answer(operation, numbers, words, &[], MOST_OUTPUT) {
        Ok(Answer { written, .. }) => written.len(),
        Err(_) => random.below(4),
    };
    room_for(random, length)
}

fn unknown(manner: &str) -> bool {
    manner == "survey: something unknown" || manner == "survey: bad office"
}

/// Most likely unknown: one that the other office alone has, if there is one.
fn stranger(
    random: &mut Random,
    desk: &Desk,
    number: u32,
    absent: impl Iterator<Item = u32>,
) -> u32 {
    let absent: Vec<u32> = absent.collect();
    if !absent.is_empty() && random.one_in(2) {
        return random.pick(&absent);
    }
    desk.stranger(random, number, absent.into_iter())
}

fn a_category(random: &mut Random, desk: &Desk, manner: &str) -> u32 {
    let category = one(random, desk.here.categories.iter().copied());
    if !unknown(manner) {
        return category;
    }
    let absent = desk.all().categories.difference(&desk.here.categories).copied();
    stranger(random, desk, category, absent)
}

fn a_deed(random: &mut Random, desk: &Desk) -> u32 {
    one(random, desk.here.deeds.iter().map(|deed| deed.0))
}

fn no_deed(random: &mut Random, desk: &Desk) -> u32 {
    let deed = a_deed(random, desk);
    let all = desk.all().deeds.iter().map(|deed| deed.0);
    stranger(random, desk, deed, all.filter(|&deed| !desk.here.knows_deed(deed)))
}

fn no_folio(random: &mut Random, desk: &Desk) -> u32 {
    let folio = one(random, desk.here.folios.iter().copied());
    let absent = desk.all().folios.difference(&desk.here.folios).copied();
    stranger(random, desk, folio, absent)
}

fn a_deed_and_folio(random: &mut Random, desk: &Desk, manner: &str) -> Vec<u32> {
    let (deed, folio) = (a_deed(random, desk), one(random, desk.here.folios.iter().copied()));
    if unknown(manner) {
        let which = random.between(1, 3);
        let deed = if which & 1 != 0 { no_deed(random, desk) } else { deed };
        let folio = if which & 2 != 0 { no_folio(random, desk) } else { folio };
        return vec![deed, folio];
    }
    let found = if manner == "survey: something to find" { a_granted(random, desk) } else { None };
    found.map_or(vec![deed, folio], |(deed, folio)| vec![deed, folio])
}

/// A deed and a folio for which somebody has a grant.
fn a_granted(random: &mut Random, desk: &Desk) -> Option<(u32, u32)> {
    let reach = Reach::of(&desk.here);
    let persons = desk.here.persons.iter();
    let pairs = persons.flat_map(|&person| reach.pairs(Side::Grant, person));
    let pairs: Vec<(u32, u32)> = pairs.collect();
    (!pairs.is_empty()).then(|| random.pick(&pairs))
}

fn deeds(random: &mut Random, desk: &Desk, manner: &str) -> Vec<u32> {
    let first = a_deed(random, desk);
    let others = desk.here.deeds.iter().map(|deed| deed.0).filter(|&deed| deed != first);
    let others: Vec<u32> = others.collect();
    let second = if others.is_empty() { first } else { random.pick(&others) };
    if unknown(manner) {
        let stranger = no_deed(random, desk);
        return match random.below(4) {
            0 => vec![stranger, second],
            1 => vec![stranger, stranger],
            2 => vec![stranger, no_deed(random, desk)],
            _ => vec![first, stranger],
        };
    }
    if manner == "survey: anything known" && random.one_in(6) {
        return vec![first, first];
    }
    vec![first, second]
}

/// Every question and every shape in turn.
pub fn on_full(random: &mut Random, turn: usize) -> (String, Inquiry) {
    let operation = IN_CATEGORY + (turn % KINDS) as u32;
    let shape = SHAPES[turn / KINDS % SHAPES.len()];
    let sheet = full(random, shape, crew(operation, shape));
    let bytes = bytes_of(&sheet.words());
    let inquiry = inquire(random, operation, "survey: something to find", bytes);
    (format!("{shape:?} asked question {operation}"), inquiry)
}

/// Many of what the question lists, and few of the others. Question 10 may take
/// a walk for each edge but those between deeds and folios, and a walk along a
/// long line is slow.
fn crew(operation: u32, shape: Shape) -> Crew {
    let long = matches!(shape, Shape::Chain | Shape::Ring);
    let [persons, deeds, folios] = match operation {
        IN_CATEGORY | GRANTED if !long => [100, 6, 4],
        NOT_GRANTED if !long => [4, 6, 40],
        IN_CATEGORY | GRANTED => [8, 4, 2],
        REDUNDANT if long => [2, 24, 80],
        _ if !long => [6, 6, 4],
        _ => [2, 4, 2],
    };
    Crew { persons, deeds, folios }
}
