//! Tests that the benchmarks time what they say: full sheets, and searches that
//! find nothing to stop at.

use std::time::Duration;

use crate::benchmark::cases::{bare, request, OPERATIONS};
use crate::benchmark::stopwatch::{middle, milliseconds};
use crate::generate::full::{Shape, SHAPES};
use crate::generate::longest::MOST_CATEGORIES;
use crate::model::answer::{ANSWER, JOINT, LISTED, WITNESS};
use crate::model::judge::{judge_words, ACCEPTED};
use crate::model::limits::{MOST_EDGES, MOST_NODES, MOST_WORDS};
use crate::model::listing::lines;
use crate::model::sheet::{bytes_of, is_full, words_of};
use crate::model::survey::*;
use crate::run::tally::Tally;
use crate::trial::expect::expect;
use crate::trial::operation::{
    ADD_EDGE, ADD_NODE, FIND_EDGE, FIND_NODE, READ_LISTING, STEPS, TRACE, WRITE_LISTING,
};

pub fn run(tally: &mut Tally) {
    for (operation, title) in OPERATIONS {
        for shape in SHAPES {
            requests(tally, operation, shape, &format!("benchmark of {title}, {shape:?}"));
        }
    }
    for shape in SHAPES {
        random_order(tally, shape);
        added(tally, shape);
    }
    times(tally);
}

/// With its first person and then its first edge again, the sheet is the full one. The
/// node's edge is missing at first, and every end goes up.
fn added(tally: &mut Tally, shape: Shape) {
    let full = words_of(&request(FIND_NODE, shape).first);
    let edge = request(ADD_EDGE, shape);
    let node = request(ADD_NODE, shape);
    let with_node = expect(&node).output[..MOST_WORDS - 4].to_vec();
    tally.test(
        &format!("benchmark of rows added, {shape:?}: the node, then the edge"),
        bytes_of(&with_node) == edge.first && expect(&edge).output == full,
    );
}

/// The lines that are read are not those that are written, one by one.
fn random_order(tally: &mut Tally, shape: Shape) {
    let typed = request(READ_LISTING, shape).first;
    let text = expect(&request(WRITE_LISTING, shape));
    let sorted = &bytes_of(&text.output)[..text.reply[4] as usize];
    let moved = lines(&typed).zip(lines(sorted)).filter(|(one, other)| one != other).count();
    tally.test(&format!("benchmark of listings, {shape:?}: random order"), moved > 2_400);
}

fn requests(tally: &mut Tally, operation: u32, shape: Shape, name: &str) {
    let request = request(operation, shape);
    let words = match operation {
        READ_LISTING | ADD_EDGE => expect(&request).output,
        _ => words_of(&request.first),
    };
    tally.test(&format!("{name}: the sheet is valid"), judge_words(&words) == ACCEPTED);
    tally.test(&format!("{name}: the sheet is full"), is_full(&words) || operation == ADD_NODE);
    let bare = expect(&bare(&request));
    let at_once = if operation == READ_LISTING { [40, 0, 0] } else { [2, 1, 0] };
    tally.test(&format!("{name}: a wrong start is refused"), bare.reply[..3] == at_once);
    let said = expect(&request).reply;
    let (number, value, count) = wanted(operation, shape);
    let same = said[..5] == [number, 0, 0, value, count];
    tally.test(&format!("{name}: said {said:?}"), same);
}

/// Refusal, value and count, worked out by hand from the way the sheets are made.
fn wanted(operation: u32, shape: Shape) -> (u32, u32, u32) {
    let persons = if shape == Shape::Dense { 452 } else { 250 };
    let nodes = match shape {
        Shape::Chain | Shape::Ring => MOST_NODES as u32 - 7 + 3,
        Shape::Star => 6,
        Shape::Dense => 50 + 3,
    };
    match operation {
        ANSWER => (0, 3, 0),
        JOINT => (0, 1, 1),
        WITNESS => (0, 0, 2 * nodes),
        LISTED => (0, 1, 0),
        IN_CATEGORY | GRANTED => (0, 0, persons),
        NOT_GRANTED => (0, 0, 1),
        BOTH | TWO_DEEDS => (26, 0, 0),
        REDUNDANT => (0, 0, redundant(shape)),
        READ_LISTING => (0, 0, MOST_WORDS as u32),
        // The same lines in another order.
        WRITE_LISTING => (0, 0, request(READ_LISTING, shape).first.len() as u32),
        FIND_NODE => (0, 1, MOST_NODES as u32 - 1),
        FIND_EDGE => (0, 1, MOST_EDGES as u32 - 1),
        // The first person's edge is missing.
        ADD_NODE => (0, 0, MOST_WORDS as u32 - 4),
        ADD_EDGE => (0, 0, MOST_WORDS as u32),
        // 67 of the 100 rows are questions.
        TRACE => (0, 0, 67),
        STEPS => (0, 100, 67),
        _ => (0, 0, 0),
    }
}

/// In the line and the ring every containment that leaves out some of it, and in
/// the ring also its steps but for the two at its ends and the one that closes it.
/// In the star the members, grants and bans. In the crowd the steps back, and the
/// first person's members.
fn redundant(shape: Shape) -> u32 {
    let (steps, edges) = (MOST_CATEGORIES - 1, MOST_EDGES as u32);
    let short = edges - steps - 3;
    match shape {
        Shape::Chain => short,
        Shape::Ring => short - 1 + steps - 2,
        Shape::Star => edges - 2 * steps - 1,
        Shape::Dense => 55 * 54 / 2 + 53,
    }
}

fn times(tally: &mut Tally) {
    let mut turns = 0;
    let fails_at_last = middle(|| {
        turns += 1;
        if turns == 3 {
            Err(turns)
        } else {
            Ok(())
        }
    });
    tally.test("a time that cannot be taken is not told", fails_at_last == Err(3));
    for (micros, wanted) in [(9_994, "9.99"), (10_040, "10.0"), (123_456, "123")] {
        let said = milliseconds(Duration::from_micros(micros));
        tally.test(&format!("{micros} microseconds are {wanted} ms"), said == wanted);
    }
}
