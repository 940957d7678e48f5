//! Sheets with as many nodes as there may be: one person, categories in a line,
//! one deed, one folio. No legal path is longer.

use crate::generate::draft::Draft;
use crate::generate::random::Random;
use crate::model::limits::*;
use crate::model::marks::all_marks;
use crate::model::office::{Ask, Side};
use crate::model::sheet::*;

pub const MOST_CATEGORIES: u32 = MOST_NODES as u32 - 3;

/// What the line of categories is, beside a line.
#[derive(Clone, Copy, Debug, PartialEq)]
pub enum Course {
    Chain,
    Ring,
    /// As many edges as there may be: every further step leads back, and shortens nothing.
    Backward,
    /// One step, anywhere, that office 2 does not have.
    OneOffice,
    /// Equal categories all along: both sides have the whole line.
    BothWays,
}

pub const COURSES: [Course; 5] =
    [Course::Chain, Course::Ring, Course::Backward, Course::OneOffice, Course::BothWays];

pub struct Longest {
    pub sheet: Sheet,
    pub ask: Ask,
    /// In the order of the path.
    pub line: Vec<u32>,
}

pub fn longest(random: &mut Random, side: Side, course: Course) -> Longest {
    let line = line(random);
    let ask = Ask { person: random.odd_word().max(1), deed: 31, folio: random.odd_word().max(1) };
    let deed = (ask.deed, random.odd_word());
    let office_count = if course == Course::OneOffice { 2 } else { 1 };
    let all = all_marks(office_count);
    let mut draft = Draft::default();
    draft.member(ask.person, line[0], all);
    draft.right(side, line[line.len() - 1], deed, all);
    draft.applies(deed, ask.folio, all);
    let gap = (course == Course::OneOffice).then(|| random.below(line.len() - 1));
    for (at, pair) in line.windows(2).enumerate() {
        draft.step(side, pair[0], pair[1], if gap == Some(at) { 1 } else { all });
    }
    finish(random, &mut draft, side, course, &line, deed);
    Longest { sheet: draft.sheet(office_count), ask, line }
}

fn finish(
    random: &mut Random,
    draft: &mut Draft,
    side: Side,
    course: Course,
    line: &[u32],
    deed: (u32, u32),
) {
    let last = line[line.len() - 1];
    match course {
        Course::Chain | Course::OneOffice => {}
        Course::Ring => draft.step(side, last, line[0], 1),
        Course::Backward => {
            while draft.edge_count() < MOST_EDGES {
                let from = random.between(1, line.len() - 1);
                draft.step(side, line[from], line[random.below(from)], 1);
            }
        }
        Course::BothWays => {
            line.windows(2).for_each(|pair| draft.step(side, pair[1], pair[0], 1));
            draft.right(side.other(), last, deed, 1);
        }
    }
}

fn line(random: &mut Random) -> Vec<u32> {
    let start = random.pick(&[1, 1_000, u32::MAX - MOST_CATEGORIES + 1]);
    let mut line: Vec<u32> = (0..MOST_CATEGORIES).map(|at| start + at).collect();
    match random.below(3) {
        0 => {}
        1 => line.reverse(),
        _ => random.shuffle(&mut line),
    }
    line
}
