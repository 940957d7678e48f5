//! Joining and taking out. First the named cases, then a tour of the refusals of each
//! sheet, then the unions at the limits and the full sheets, then any: which sheets
//! are joined, and with how much room. What is taken out stands in `takings`.

use crate::cases::series::{made, Made, Series, Turn};
use crate::cases::takings;
use crate::generate::damage;
use crate::generate::desk::room_for;
use crate::generate::dress::remainder;
use crate::generate::full::SHAPES;
use crate::generate::inquiry::Inquiry;
use crate::generate::pairs::{self, Pair};
use crate::generate::random::Random;
use crate::generate::unions::{self, UNIONS};
use crate::model::join::join;
use crate::model::limits::{Form, HEADER, MOST_EDGES, MOST_NODES, MOST_OFFICES};
use crate::model::sheet::{bytes_of, words_of};
use crate::model::take_out::take_out;
use crate::named;
use crate::trial::operation::JOIN;
use crate::trial::request::MOST_OUTPUT;

/// Each number in the first of two sheets, in the second, and in one alone; twice.
const TOUR: usize = 2 * 3 * 17;
/// Each union with three amounts of room, twice.
pub const LIMITS: usize = 2 * 3 * UNIONS.len();
/// Each shape at each office, and with all nodes known to both and not.
pub const FULL: usize = SHAPES.len() * 2 * 2;

/// Of ten cases three are a round trip, four are joins and three takings out.
const TEN: usize = 10;

const STREAM: u64 = 0x4A6F_696E_3132_3133;

pub fn series(seed: u64, random: usize) -> Series {
    Series::new(
        seed,
        STREAM,
        named::joins::all(),
        vec![(TOUR, tour_case), (LIMITS, limits_case), (FULL, full_case), (random, any_case)],
    )
}

fn limits_case(random: &mut Random, turn: &Turn) -> Made {
    let (name, inquiry) = at_limit(random, turn.at);
    made(random, "join: limits", name, inquiry)
}

fn full_case(random: &mut Random, turn: &Turn) -> Made {
    let (name, inquiry) = takings::on_full(random, turn.at);
    made(random, "take out: full sheet", name, inquiry)
}

fn any_case(random: &mut Random, turn: &Turn) -> Made {
    match turn.at % TEN {
        leg @ 0..=2 => {
            let mut together = Random::for_case(turn.seed, (turn.number - leg) as u64);
            round_trip(random, joined_pair(&mut together), leg)
        }
        3..=6 => {
            let (manner, relation, inquiry) = any(random);
            made(random, manner, relation, inquiry)
        }
        _ => {
            let (manner, inquiry) = takings::any(random);
            made(random, manner, String::new(), inquiry)
        }
    }
}

/// Two sheets are joined, and then taken out again one after the other: what
/// comes back is what was joined.
fn round_trip(random: &mut Random, sheets: [Vec<u32>; 2], leg: usize) -> Made {
    let joint = join(&sheets[0], &sheets[1], MOST_OUTPUT).unwrap_or_default().written;
    if leg == 0 {
        let room = joint.len() + random.below(3);
        let inquiry = asked(random, sheets, room);
        return made(random, "join: round trip", "there".to_string(), inquiry);
    }
    let (office, input) = (leg as u32, &sheets[leg - 1]);
    let room = input.len() + random.below(3);
    let inquiry = takings::asked(random, &joint, office, room);
    let back = take_out(&joint, office, room).unwrap_or_default().written;
    let slip = (back != *input).then(|| format!("office {office} is not what was joined"));
    let name = format!("back, office {office}");
    ("take out: round trip", name, inquiry.request(random), slip)
}

fn tour_case(random: &mut Random, turn: &Turn) -> Made {
    let number = 1 + (turn.at / 6) as u32;
    let bytes = damage::aimed_anywhere(random, number);
    let name = |place: &str| format!("aimed at {number} in {place}");
    match turn.at % 3 {
        0 => {
            let inquiry = aimed(random, bytes, false);
            made(random, "join: tour", name("sheet 1"), inquiry)
        }
        1 => {
            let inquiry = aimed(random, bytes, true);
            made(random, "join: tour", name("sheet 2"), inquiry)
        }
        _ => {
            let office = random.below(MOST_OFFICES as usize + 2) as u32;
            let inquiry = takings::inquiry(random, words_of(&bytes), office);
            made(random, "take out: tour", name("the sheet"), inquiry)
        }
    }
}

/// What is joined, and their shares out of 100.
const MANNERS: [(&str, usize); 6] = [
    ("join: two sheets", 64),
    ("join: two offices", 12),
    ("join: damaged first", 6),
    ("join: damaged second", 8),
    ("join: damaged both", 4),
    ("join: spoiled", 6),
];

pub fn any(random: &mut Random) -> (&'static str, String, Inquiry) {
    let manner = random.manner(&MANNERS);
    let (relation, pair) = pairs::any(random);
    let counts = office_counts(random, manner);
    let mut sheets = marked(random, &pair, counts);
    pairs::damage(random, manner, &mut sheets);
    (manner, relation.to_string(), inquiry(random, sheets))
}

/// A damaged sheet may lie beside one of several offices: then its own fault counts.
fn office_counts(random: &mut Random, manner: &str) -> [u32; 2] {
    let many = MOST_OFFICES;
    match manner {
        "join: two offices" => random.pick(&[[1, many], [many, 1], [many, many]]),
        "join: two sheets" => [1, 1],
        _ => [random.pick(&[1, 1, many]), random.pick(&[1, 1, many])],
    }
}

fn marked(random: &mut Random, pair: &Pair, counts: [u32; 2]) -> [Vec<u32>; 2] {
    [pair.0.marked(random, counts[0]).words(), pair.1.marked(random, counts[1]).words()]
}

fn inquiry(random: &mut Random, sheets: [Vec<u32>; 2]) -> Inquiry {
    let length = match join(&sheets[0], &sheets[1], MOST_OUTPUT) {
        Ok(answer) => answer.written.len(),
        Err(_) => random.pick(&[0, HEADER, 20]),
    };
    let room = room_for(random, length);
    asked(random, sheets, room)
}

pub fn asked(random: &mut Random, [first, second]: [Vec<u32>; 2], room: usize) -> Inquiry {
    let mut sheet = bytes_of(&first);
    remainder(random, &mut sheet);
    Inquiry { operation: JOIN, numbers: Vec::new(), sheet, second, room }
}

/// Two one-office sheets that can be joined.
pub fn joined_pair(random: &mut Random) -> [Vec<u32>; 2] {
    loop {
        let (_, pair) = pairs::any(random);
        let sheets = marked(random, &pair, [1, 1]);
        if join(&sheets[0], &sheets[1], MOST_OUTPUT).is_ok() {
            return sheets;
        }
    }
}

/// Each union in turn, with exactly enough room, one word less and more.
pub fn at_limit(random: &mut Random, turn: usize) -> (String, Inquiry) {
    let (nodes, edges) = UNIONS[turn / 3 % UNIONS.len()];
    let pair = unions::pair(random, nodes, edges);
    let sheets = marked(random, &pair, [1, 1]);
    let length = Form::One.length(nodes.min(MOST_NODES), edges.min(MOST_EDGES));
    let fits = nodes <= MOST_NODES && edges <= MOST_EDGES;
    let room = match turn % 3 {
        0 => length,
        1 if fits => length - 1,
        1 => 0,
        _ => length + random.between(1, 12),
    };
    (format!("a union of {nodes} nodes and {edges} edges"), asked(random, sheets, room))
}

/// The one sheet is damaged so that this number should come; the other is whole,
/// of several offices, or damaged too.
pub fn aimed(random: &mut Random, bytes: Vec<u8>, in_second: bool) -> Inquiry {
    let (_, pair) = pairs::any(random);
    let counts = [random.pick(&[1, MOST_OFFICES]), random.pick(&[1, MOST_OFFICES])];
    let mut sheets = marked(random, &pair, counts);
    if in_second {
        sheets[1] = words_of(&bytes);
    } else {
        let manner = random.pick(&["", "", "damaged second"]);
        pairs::damage(random, manner, &mut sheets);
        sheets[0] = words_of(&bytes);
    }
    inquiry(random, sheets)
}
