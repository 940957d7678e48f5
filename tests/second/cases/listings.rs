//! Listings read and written. First the named cases, then the tours: each number at
//! each place, each slip, each repeated row, each missing end, two faults at once,
//! each refusal of the writer, the limits, texts far over them, and full sheets there
//! and back; then any.

use crate::cases::series::{Made, Series, Turn};
use crate::cases::tours;
use crate::generate::desk::room_for;
use crate::generate::dress::remainder;
use crate::generate::inquiry::Inquiry;
use crate::generate::outline::Outline;
use crate::generate::random::Random;
use crate::generate::texts::{self, LINE_FAULTS, NO_NODE, TWO_IN_ONE};
use crate::generate::typing;
use crate::generate::{damage, make, pairs};
use crate::model::limits::{HEADER, MOST_OFFICES, WORD};
use crate::model::listing::{read, write};
use crate::model::sheet::{bytes_of, words_of};
use crate::named;
use crate::trial::expect::expect;
use crate::trial::operation::{READ_LISTING, WRITE_LISTING};
use crate::trial::request::{MOST_OUTPUT, MOST_PAYLOAD};

/// Of ten random cases eight are read.
const TEN: usize = 10;

const STREAM: u64 = 0x4C69_7374_3330_3331;

pub fn series(seed: u64, random: usize) -> Series {
    let mut runs = tours::all();
    runs.push((random, any_case));
    Series::new(seed, STREAM, named::listings::all(), runs)
}

/// A text to be read, and the number that it is made for, if it is made for one.
pub struct Aimed {
    pub kind: &'static str,
    pub name: String,
    pub text: Vec<u8>,
    pub number: Option<u32>,
    /// Nothing where it does not matter: then it is about what is needed.
    pub room: Option<usize>,
}

impl Aimed {
    pub fn new(kind: &'static str, name: String, text: Vec<u8>, number: Option<u32>) -> Aimed {
        Aimed { kind, name, text, number, room: None }
    }

    pub fn made(mut self, random: &mut Random) -> Made {
        self.text.truncate(MOST_PAYLOAD);
        let room = self.room.unwrap_or_else(|| reading_room(random, &self.text));
        let request = asked(READ_LISTING, self.text, room).request(random);
        let said = expect(&request).reply[0];
        let missed = self.number.filter(|&number| number != said);
        let slip = missed.map(|number| format!("made for {number}, and this program says {said}"));
        (self.kind, self.name, request, slip)
    }
}

pub fn asked(operation: u32, sheet: Vec<u8>, room: usize) -> Inquiry {
    Inquiry { operation, numbers: Vec::new(), sheet, second: Vec::new(), room }
}

/// About as many words as the sheet has.
fn reading_room(random: &mut Random, text: &[u8]) -> usize {
    match read(text, MOST_OUTPUT) {
        Ok(answer) => room_for(random, answer.written.len()),
        Err(_) => random.pick(&[0, HEADER, 20]),
    }
}

/// About as many words as the text fills.
pub fn writing_room(random: &mut Random, words: &[u32]) -> usize {
    match write(words, WORD * MOST_OUTPUT) {
        Ok(text) => room_for(random, text.len().div_ceil(WORD)),
        Err(_) => random.pick(&[0, HEADER, 20]),
    }
}

pub fn writing(random: &mut Random, words: &[u32], room: usize) -> Inquiry {
    let mut sheet = bytes_of(words);
    remainder(random, &mut sheet);
    asked(WRITE_LISTING, sheet, room)
}

fn any_case(random: &mut Random, turn: &Turn) -> Made {
    match turn.at % TEN {
        leg @ 0..=2 => {
            let mut together = Random::for_case(turn.seed, (turn.number - leg) as u64);
            let outline = pairs::whole(&mut together);
            trip(random, &outline, leg)
        }
        3..=8 => any_text(random).made(random),
        _ => any_sheet(random),
    }
}

/// A sheet is written; what that gives is read, and gives the sheet; and so do its
/// lines in another order.
pub fn trip(random: &mut Random, outline: &Outline, leg: usize) -> Made {
    let words = outline.marked(random, 1).words();
    let text = match leg {
        2 => typing::text(&texts::ordered(random, outline)),
        _ => write(&words, WORD * MOST_OUTPUT).unwrap_or_default(),
    };
    if leg == 0 {
        let room = text.len().div_ceil(WORD) + random.below(3);
        let request = writing(random, &words, room).request(random);
        return ("listing: there", "a sheet written".to_string(), request, None);
    }
    let room = words.len() + random.below(3);
    let back = read(&text, room).unwrap_or_default().written;
    let slip = (back != words).then(|| "what is read is not what was written".to_string());
    let name = ["", "as it was written", "in any order"][leg].to_string();
    let request = asked(READ_LISTING, text, room).request(random);
    ("listing: and back", name, request, slip)
}

/// What is read, and their shares out of 100.
pub const TEXTS: [(&str, usize); 7] = [
    ("listing: right", 22),
    ("listing: one fault", 30),
    ("listing: two faults in one line", 10),
    ("listing: two faults", 12),
    ("listing: edited", 16),
    ("listing: pieces", 6),
    ("listing: noise", 4),
];

fn any_text(random: &mut Random) -> Aimed {
    let kind = random.manner(&TEXTS);
    let faults = [LINE_FAULTS[0], LINE_FAULTS[1], LINE_FAULTS[2], LINE_FAULTS[3], NO_NODE];
    let lines = texts::roomy(random);
    let (text, number) = match kind {
        "listing: right" => (typing::text(&texts::right(random)), None),
        "listing: one fault" => {
            let number = random.pick(&faults);
            (texts::one_fault(random, &lines, number).0, Some(number))
        }
        "listing: two faults in one line" => {
            let pair = random.pick(&TWO_IN_ONE);
            (texts::one_line(random, &lines, pair).0, Some(pair[0]))
        }
        "listing: two faults" => {
            let second = if random.one_in(3) { NO_NODE } else { random.pick(&LINE_FAULTS) };
            let pair = [random.pick(&LINE_FAULTS), second];
            (texts::two_lines(random, &lines, pair).0, Some(pair[0]))
        }
        "listing: edited" => (texts::edited(random), None),
        "listing: pieces" => (texts::pieces(random), None),
        _ => (texts::noise(random), None),
    };
    Aimed::new(kind, String::new(), text, number)
}

/// What is written, and their shares out of 100.
pub const SHEETS: [(&str, usize); 4] = [
    ("listing: a sheet", 55),
    ("listing: a sheet of two offices", 15),
    ("listing: a damaged sheet", 18),
    ("listing: a spoiled sheet", 12),
];

fn any_sheet(random: &mut Random) -> Made {
    let kind = random.manner(&SHEETS);
    let outline = pairs::whole(random);
    let words = match kind {
        "listing: a sheet" => outline.marked(random, 1).words(),
        "listing: a sheet of two offices" => outline.marked(random, MOST_OFFICES).words(),
        "listing: a damaged sheet" => words_of(&damage::any(random)),
        _ => {
            let whole = outline.marked(random, 1).words();
            pairs::spoiled(random, &whole)
        }
    };
    let room = writing_room(random, &words);
    let request = writing(random, &words, room).request(random);
    (kind, String::new(), request, None)
}

/// As many rows as there may be, of one office.
pub fn full(random: &mut Random) -> Outline {
    Outline::of(&make::full(random))
}
