//! The few cases on the largest sheets and with the longest lists: a walk in
//! rounds over the rows is slow there, so each of them has to count.

use crate::cases::questions::spread;
use crate::generate::inquiry::Inquiry;
use crate::generate::lists::{path_ask, stroll};
use crate::generate::longest::{longest, Course, Longest, COURSES};
use crate::generate::random::Random;
use crate::generate::{lists, scene};
use crate::model::answer::{ANSWER, JOINT, LISTED};
use crate::model::closure::witness;
use crate::model::office::{Ask, Office, Side};
use crate::model::sheet::*;

/// One of the largest sheets: every operation, side and course in turn.
pub fn on_longest(random: &mut Random, turn: usize) -> (String, Inquiry) {
    let operation = ANSWER + (turn as u32) % LISTED;
    let side = [Side::Grant, Side::Ban][turn / 4 % 2];
    let course = COURSES[turn / 8 % COURSES.len()];
    let Longest { sheet, mut ask, line } = longest(random, side, course);
    let asked_side = if random.one_in(6) { side.other() } else { side };
    let kind = match asked_side {
        Side::Grant => 0,
        Side::Ban => random.odd_word_from(1),
    };
    if random.one_in(12) {
        ask.folio = ask.folio.wrapping_add(1);
    }
    let first = match (operation, course) {
        (JOINT, _) => random.between(1, 3) as u32,
        (_, Course::OneOffice) => random.between(1, 2) as u32,
        _ => 1,
    };
    let words = sheet.words();
    let room = 2 * (line.len() + 3) - random.pick(&[0, 0, 0, 1, 2]);
    let second =
        if operation == LISTED { long_list(random, &words, side, &ask) } else { Vec::new() };
    let numbers = spread(operation, first, kind, &ask);
    let name = format!("{course:?} of {side:?}s, asked for {asked_side:?}s");
    (name, Inquiry { operation, numbers, sheet: bytes_of(&words), second, room })
}

/// The path itself, or with one word changed, a category twice, or cut.
fn long_list(random: &mut Random, words: &[u32], side: Side, ask: &Ask) -> Vec<u32> {
    let Some(mut path) = witness(&Office::of(words, 1), side, ask) else {
        return Vec::new();
    };
    let at = random.between(1, path.len() - 3);
    match random.below(8) {
        0 => path[at] = path[random.between(1, path.len() - 3)],
        1 => path.insert(at, path[at]),
        2 => drop(path.remove(at)),
        3 => path[at].1 = 1,
        _ => {}
    }
    lists::words(&path)
}

/// Lists of many words, on the largest ring and on small ones.
pub fn with_very_long_list(random: &mut Random, turn: usize) -> Inquiry {
    let side = [Side::Grant, Side::Ban][turn % 2];
    let (words, path) = match turn {
        0 | 1 => largest_ring(random, side),
        _ => small_ring(random, side),
    };
    let second = lists::very_long(random, &path);
    let numbers = spread(LISTED, 1, u32::from(side == Side::Ban), &path_ask(&path));
    Inquiry { operation: LISTED, numbers, sheet: bytes_of(&words), second, room: 0 }
}

fn largest_ring(random: &mut Random, side: Side) -> (Vec<u32>, lists::Path) {
    let Longest { sheet, ask, .. } = longest(random, side, Course::Ring);
    let words = sheet.words();
    let path = witness(&Office::of(&words, 1), side, &ask);
    (words, path.expect("a ring leads everywhere"))
}

/// Rings are made of either side: drawn until one has a path of this one.
fn small_ring(random: &mut Random, side: Side) -> (Vec<u32>, lists::Path) {
    loop {
        let words = scene::small_ring(random).words();
        if let Some(path) = stroll(random, &Office::of(&words, 1), side) {
            return (words, path);
        }
    }
}
