//! Questions 1 to 3 of an opened sheet and by the counter. First the named cases,
//! then a tour of the refusals of a sheet, then files of other lengths, then the
//! largest sheets, then any.

use crate::cases::large;
use crate::cases::questions;
use crate::cases::series::{made, Made, Series, Turn};
use crate::generate::damage;
use crate::generate::inquiry::Inquiry;
use crate::generate::random::Random;
use crate::model::limits::{MOST_BYTES, WORD};
use crate::named;
use crate::trial::operation::{operations, way_of, WAYS};
use crate::trial::request::MOST_PAYLOAD;

/// Operations of this kind.
const KINDS: usize = 6;
const TOUR: usize = KINDS * 17;
/// Each of them with each length.
const RESIZED: usize = KINDS * LENGTHS.len();
/// Each question each way, on each side and course.
const LARGEST: usize = KINDS * 10;

const STREAM: u64 = 0x5761_7973_3134_3233;

pub fn series(seed: u64, random: usize) -> Series {
    Series::new(
        seed,
        STREAM,
        named::ways::all(),
        vec![
            (TOUR, tour_case),
            (RESIZED, resized_case),
            (LARGEST, largest_case),
            (random, any_case),
        ],
    )
}

/// The operations take turns.
fn operation(turn: &Turn) -> u32 {
    operations()[turn.at % KINDS]
}

fn any_case(random: &mut Random, turn: &Turn) -> Made {
    let (manner, inquiry) = any(random, operation(turn));
    made(random, manner, String::new(), inquiry)
}

fn tour_case(random: &mut Random, turn: &Turn) -> Made {
    let number = 1 + (turn.at / KINDS) as u32;
    let sheet = damage::aimed_anywhere(random, number);
    let mut inquiry = inquire(random, operation(turn), "question: damaged sheet", sheet);
    // By the counter a remainder would be refused before what is aimed at.
    inquiry.sheet.truncate(inquiry.sheet.len() / WORD * WORD);
    made(random, "way: tour", format!("aimed at {number}"), inquiry)
}

fn resized_case(random: &mut Random, turn: &Turn) -> Made {
    let (_, mut inquiry) = any(random, operation(turn));
    let (name, length) = LENGTHS[turn.at / KINDS];
    resize(random, &mut inquiry.sheet, length);
    made(random, "way: another length", name.to_string(), inquiry)
}

fn largest_case(random: &mut Random, turn: &Turn) -> Made {
    let (way, question, turn) = (WAYS[turn.at % 2], turn.at / 2 % 3, turn.at / 6);
    let (name, mut inquiry) = large::on_longest(random, 4 * turn + question);
    inquiry.operation = way.operation(inquiry.operation);
    made(random, "way: largest sheet", name, inquiry)
}

/// A payload's length in bytes.
#[derive(Clone, Copy)]
pub enum Length {
    /// So many bytes fewer or more.
    Fewer(usize),
    More(usize),
    /// Cut or lengthened to so many.
    Exactly(usize),
}

use Length::*;

pub const LENGTHS: [(&str, Length); 21] = [
    ("no bytes", Exactly(0)),
    ("1 byte", Exactly(1)),
    ("3 bytes", Exactly(3)),
    ("4 bytes", Exactly(4)),
    ("20 bytes", Exactly(20)),
    ("21 bytes", Exactly(21)),
    ("23 bytes", Exactly(23)),
    ("24 bytes", Exactly(24)),
    ("1 byte fewer", Fewer(1)),
    ("2 bytes fewer", Fewer(2)),
    ("4 bytes fewer", Fewer(4)),
    ("1 byte more", More(1)),
    ("3 bytes more", More(3)),
    ("4 bytes more", More(4)),
    ("the most bytes", Exactly(MOST_BYTES)),
    ("1 byte above the most", Exactly(MOST_BYTES + 1)),
    ("4 bytes above the most", Exactly(MOST_BYTES + 4)),
    ("8 bytes above the most", Exactly(MOST_BYTES + 8)),
    ("4 bytes under the longest payload", Exactly(MOST_PAYLOAD - 4)),
    ("1 byte under the longest payload", Exactly(MOST_PAYLOAD - 1)),
    ("the longest payload", Exactly(MOST_PAYLOAD)),
];

/// What is added is zeros or anything.
pub fn resize(random: &mut Random, bytes: &mut Vec<u8>, length: Length) {
    let length = match length {
        Fewer(fewer) => bytes.len().saturating_sub(fewer),
        More(more) => bytes.len() + more,
        Exactly(length) => length,
    };
    let zeros = random.one_in(2);
    let mut byte = || if zeros { 0 } else { random.word() as u8 };
    let added: Vec<u8> = (bytes.len()..length).map(|_| byte()).collect();
    bytes.extend(added);
    bytes.truncate(length.min(MOST_PAYLOAD));
}

/// One in so many has a length that is not its sheet's.
const ODD_LENGTHS: usize = 8;

pub fn any(random: &mut Random, operation: u32) -> (&'static str, Inquiry) {
    let (mut manner, mut inquiry) = questions::any(random, question_of(operation));
    inquiry.operation = operation;
    if random.one_in(ODD_LENGTHS) {
        manner = "way: another length";
        let length = random.pick(&LENGTHS).1;
        resize(random, &mut inquiry.sheet, length);
    }
    (manner, inquiry)
}

pub fn inquire(
    random: &mut Random,
    operation: u32,
    manner: &'static str,
    sheet: Vec<u8>,
) -> Inquiry {
    Inquiry { operation, ..questions::inquire(random, question_of(operation), manner, sheet) }
}

fn question_of(operation: u32) -> u32 {
    way_of(operation).map_or(operation, |(_, question)| question)
}
