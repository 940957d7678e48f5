//! Takings out of sheets of one office and of several: which office, and with how
//! much room.

use crate::cases::joins::joined_pair;
use crate::generate::desk::room_for;
use crate::generate::dress::remainder;
use crate::generate::full::{full, Crew, SHAPES};
use crate::generate::inquiry::Inquiry;
use crate::generate::outline::Outline;
use crate::generate::random::Random;
use crate::generate::{damage, pairs, throng};
use crate::model::join::join;
use crate::model::limits::{HEADER, MOST_OFFICES};
use crate::model::sheet::{bytes_of, office_count, words_of};
use crate::model::take_out::take_out;
use crate::trial::operation::TAKE_OUT;
use crate::trial::request::MOST_OUTPUT;

/// What is taken out, and their shares out of 100.
const MANNERS: [(&str, usize); 4] = [
    ("take out: an office", 58),
    ("take out: bad office", 20),
    ("take out: damaged sheet", 13),
    ("take out: spoiled sheet", 9),
];

pub fn any(random: &mut Random) -> (&'static str, Inquiry) {
    let manner = random.manner(&MANNERS);
    let whole = whole_sheet(random);
    let words = match manner {
        "take out: damaged sheet" => words_of(&damage::any(random)),
        "take out: spoiled sheet" => pairs::spoiled(random, &whole),
        _ => whole,
    };
    let office = match manner {
        "take out: bad office" => bad_office(random, office_count(&words)),
        "take out: damaged sheet" => random.below(MOST_OFFICES as usize + 2) as u32,
        _ => {
            let count = words.get(1).map_or(1, |&count| count.clamp(1, MOST_OFFICES));
            random.between(1, count as usize) as u32
        }
    };
    (manner, inquiry(random, words, office))
}

/// Of several offices most often, and some of them joined.
fn whole_sheet(random: &mut Random) -> Vec<u32> {
    match random.below(6) {
        0 | 1 => throng::small(random).words(),
        2 => {
            let [first, second] = joined_pair(random);
            join(&first, &second, MOST_OUTPUT).map_or(first, |joint| joint.written)
        }
        _ => {
            let count = random.pick(&[1, MOST_OFFICES, MOST_OFFICES, MOST_OFFICES]);
            pairs::whole(random).marked(random, count).words()
        }
    }
}

fn bad_office(random: &mut Random, count: u32) -> u32 {
    match random.below(4) {
        0 => 0,
        1 | 2 => count + 1,
        _ => random.pick(&[MOST_OFFICES + 1, MOST_OFFICES + 2, 257, 258, 1 << 31, u32::MAX]),
    }
}

pub fn inquiry(random: &mut Random, words: Vec<u32>, office: u32) -> Inquiry {
    let length = match take_out(&words, office, MOST_OUTPUT) {
        Ok(answer) => answer.written.len(),
        Err(_) => random.pick(&[0, HEADER, 20]),
    };
    let room = room_for(random, length);
    asked(random, &words, office, room)
}

pub fn asked(random: &mut Random, words: &[u32], office: u32, room: usize) -> Inquiry {
    let mut sheet = bytes_of(words);
    remainder(random, &mut sheet);
    Inquiry { operation: TAKE_OUT, numbers: vec![office], sheet, second: Vec::new(), room }
}

/// Full sheets of several offices, of every shape, at the first two. The nodes of
/// half of them are all known to every office; of the others not, and then they
/// have fewer edges.
pub fn on_full(random: &mut Random, turn: usize) -> (String, Inquiry) {
    let shape = SHAPES[turn % SHAPES.len()];
    let office = 1 + (turn / SHAPES.len() % 2) as u32;
    let crew = Crew { persons: 60, deeds: 40, folios: 40 };
    let sheet = loop {
        let sheet = full(random, shape, crew);
        if sheet.office_count == MOST_OFFICES {
            break sheet;
        }
    };
    let sheet = match turn / (2 * SHAPES.len()) % 2 {
        0 => sheet,
        _ => Outline::of(&sheet).marked(random, MOST_OFFICES),
    };
    (format!("{shape:?}, office {office}"), inquiry(random, sheet.words(), office))
}
