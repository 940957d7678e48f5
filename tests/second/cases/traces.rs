//! Traces of the duty desk, each put to the trial whole and then one row at a time. First
//! the named cases, then the tours: each refusal of a sheet, one office, each fault of a row
//! and each two of them, what can happen to one folio, 32 folios and one more, each room,
//! full sheets and long traces; then any.

use crate::cases::series::{Made, Maker, Series, Turn};
use crate::generate::desk::room_for;
use crate::generate::dress::remainder;
use crate::generate::inquiry::Inquiry;
use crate::generate::random::Random;
use crate::generate::traces::*;
use crate::generate::{damage, duty};
use crate::model::sheet::{bytes_of, words_of, Sheet};
use crate::model::trace::{step_by_step, TraceRow, QUESTION, START, TRACE_WIDTH};
use crate::named;
use crate::trial::expect::expect;
use crate::trial::operation::{STEPS, TRACE};
use crate::trial::request::MOST_PAYLOAD;

/// Cases of one trace: whole, and step by step.
pub const LEGS: usize = 2;

/// Each number of a sheet and 3 for want of office 2, with right rows, with a bad row, with
/// no rows and with no room.
const TOUR: usize = 4 * 18;
/// Each fault of a row at a first, a middle and a last row, four times.
const FAULTY: usize = 12 * FAULTS.len();
/// Each pair of faults, twelve times.
const PAIRED: usize = 12 * PAIRS.len();
/// Each story of one folio.
const TOLD: usize = 60 * STORIES.len();
/// Each way to go on from 32 folios.
const CROWDED: usize = 40 * CROWDS.len();
/// Each room.
const ROOMED: usize = 12 * ROOMS;
const LARGE: usize = 6;

const ROOMS: usize = 5;

/// Two faults of one row: the first is told. 3, 1 to 17 and 25 are in the tours.
const PAIRS: [(&str, u32); 5] = [
    ("50 and an unknown kind", 50),
    ("50 and a spare word", 50),
    ("50 and a folio too many", 50),
    ("54 and a folio too many", 54),
    ("a bad row and no room", 54),
];

const STREAM: u64 = 0x5472_6163_6533_3637;

pub fn series(seed: u64, random: usize) -> Series {
    let runs: Vec<(usize, Maker)> = vec![
        (LEGS * TOUR, |random, turn| leg(random, turn, tour)),
        (LEGS * FAULTY, |random, turn| leg(random, turn, faulty)),
        (LEGS * PAIRED, |random, turn| leg(random, turn, paired)),
        (LEGS * TOLD, |random, turn| leg(random, turn, told)),
        (LEGS * CROWDED, |random, turn| leg(random, turn, crowded)),
        (LEGS * ROOMED, |random, turn| leg(random, turn, roomed)),
        (LEGS * LARGE, |random, turn| leg(random, turn, large)),
        (LEGS * random, |random, turn| leg(random, turn, any)),
    ];
    Series::new(seed, STREAM, named::traces::all(), runs)
}

/// A trace, and the number that it is made for, if it is made for one.
struct Drawn {
    kind: &'static str,
    name: String,
    sheet: Vec<u32>,
    timeout: u32,
    rows: Vec<u32>,
    room: usize,
    number: Option<u32>,
}

/// Both legs of a trace draw it from the same chance.
fn leg(random: &mut Random, turn: &Turn, draw: fn(&mut Random, usize) -> Drawn) -> Made {
    let leg = turn.at % LEGS;
    let mut together = Random::for_case(turn.seed, (turn.number - leg) as u64);
    let drawn = draw(&mut together, turn.at / LEGS);
    let mut sheet = bytes_of(&drawn.sheet);
    remainder(random, &mut sheet);
    let (operation, numbers) = ([TRACE, STEPS][leg], vec![drawn.timeout]);
    let inquiry = Inquiry { operation, numbers, sheet, second: drawn.rows, room: drawn.room };
    let request = inquiry.request(random);
    let slip = drawn.number.and_then(|number| {
        let (number, said) = (told_by(number, operation), expect(&request).reply[0]);
        let missed = said != number;
        missed.then(|| format!("made for {number}, and this program says {said}"))
    });
    (drawn.kind, drawn.name, request, slip)
}

/// A step has no room that could be too short.
fn told_by(number: u32, operation: u32) -> u32 {
    match (number, operation) {
        (25, STEPS) => 0,
        _ => number,
    }
}

/// How many questions are answered, whatever the room.
fn answers(sheet: &[u32], timeout: u32, rows: &[u32]) -> usize {
    step_by_step(sheet, timeout, rows).answers.len()
}

/// Enough room in most cases.
fn some_room(random: &mut Random, sheet: &[u32], timeout: u32, rows: &[u32]) -> usize {
    let length = answers(sheet, timeout, rows);
    match random.one_in(3) {
        true => room_for(random, length),
        false => length + random.pick(&[0, 0, 1, 2, 7]),
    }
}

/// A small sheet, a timeout and right rows.
fn right(random: &mut Random, least: usize, most: usize) -> (Sheet, u32, Vec<TraceRow>) {
    let (sheet, timeout) = (duty::any(random), any_timeout(random));
    let names = Names::of(random, &sheet);
    let count = random.between(least, most);
    let rows = rows(random, &names, timeout, count);
    (sheet, timeout, rows)
}

fn tour(random: &mut Random, at: usize) -> Drawn {
    let (number, how) = (1 + (at / 4) as u32, at % 4);
    let sheet = match number {
        18 => duty::of_one_office(random).words(),
        _ => words_of(&damage::aimed_anywhere(random, number)),
    };
    let (_, timeout, rows) = right(random, 2, 8);
    let at = random.below(rows.len());
    let rows = match how {
        1 => with_fault(random, &rows, at, 3),
        2 => Vec::new(),
        _ => words(&rows),
    };
    let room = if how == 3 { 0 } else { 9 };
    let name = match number {
        18 => "no office 2".to_string(),
        _ => format!("aimed at the sheet's {number}"),
    };
    Drawn { kind: "trace: bad sheet", name, sheet, timeout, rows, room, number: None }
}

fn faulty(random: &mut Random, at: usize) -> Drawn {
    let (fault, place) = (at % FAULTS.len(), at / FAULTS.len() % 3);
    let (sheet, timeout, rows) = right(random, 3, 9);
    // Only a row that has one before it can be lower.
    let first = usize::from(matches!(fault, 0 | 1 | 11));
    let row = [first, random.between(1, rows.len() - 2), rows.len() - 1][place];
    let (name, number) = FAULTS[fault];
    let rows = with_fault(random, &rows, row, fault);
    let sheet = sheet.words();
    let room = some_room(random, &sheet, timeout, &rows);
    let (kind, name) = ("trace: a fault", format!("{name}, row {row}"));
    Drawn { kind, name, sheet, timeout, rows, room, number: Some(number) }
}

fn paired(random: &mut Random, at: usize) -> Drawn {
    let (name, number) = PAIRS[at % PAIRS.len()];
    let sheet = duty::any(random);
    let names = Names::of(random, &sheet);
    let (mut timeout, mut rows) = crowd(random, &names, 0);
    let crowded = name.ends_with("too many");
    if !crowded {
        let count = random.between(3, 9);
        timeout = any_timeout(random);
        rows = crate::generate::traces::rows(random, &names, timeout, count);
        rows.push(TraceRow { kind: QUESTION, ..rows[count - 1] });
        rows.push(start(rows[count].minute, 5));
    }
    let at = if crowded { 32 } else { rows.len() - 1 };
    let room = if name.ends_with("no room") { 0 } else { rows.len() };
    if number == 50 {
        rows[..at].iter_mut().for_each(|row| row.minute = row.minute.max(2));
        rows[at].minute = rows[at - 1].minute - 1;
    }
    match name {
        "50 and an unknown kind" => rows[at].kind = random.pick(&[0, 4, u32::MAX]),
        "50 and a spare word" | "54 and a folio too many" => rows[at].person = 9,
        "a bad row and no room" => rows[at].deed = 1,
        _ => {}
    }
    let (kind, sheet, rows) = ("trace: two faults", sheet.words(), words(&rows));
    Drawn { kind, name: name.to_string(), sheet, timeout, rows, room, number: Some(number) }
}

fn told(random: &mut Random, at: usize) -> Drawn {
    let which = at % STORIES.len();
    let sheet = duty::small(random);
    let (names, timeout) = (Names::of(random, &sheet), any_timeout(random));
    let rows = story(random, &names, timeout, which);
    let (kind, name) = ("trace: a story", STORIES[which].0.to_string());
    let (sheet, rows) = (sheet.words(), words(&rows));
    Drawn { kind, name, sheet, timeout, rows, room: 9, number: Some(0) }
}

fn crowded(random: &mut Random, at: usize) -> Drawn {
    let (name, number) = CROWDS[at % CROWDS.len()];
    let sheet = duty::any(random);
    let names = Names::of(random, &sheet);
    let (timeout, rows) = crowd(random, &names, at % CROWDS.len());
    let (kind, name) = ("trace: 32 folios", name.to_string());
    let (sheet, rows) = (sheet.words(), words(&rows));
    Drawn { kind, name, sheet, timeout, rows, room: 4, number: Some(number) }
}

fn roomed(random: &mut Random, at: usize) -> Drawn {
    let (sheet, timeout, rows) = loop {
        let (sheet, timeout, rows) = right(random, 4, 14);
        if rows.iter().filter(|row| row.kind == QUESTION).count() > 1 {
            break (sheet.words(), timeout, words(&rows));
        }
    };
    let length = answers(&sheet, timeout, &rows);
    let room = [length, length - 1, 0, length + 1, length + 30][at % ROOMS];
    let number = if room < length { 25 } else { 0 };
    let (kind, name) = ("trace: room", format!("{length} words into {room}"));
    Drawn { kind, name, sheet, timeout, rows, room, number: Some(number) }
}

/// Full sheets with a few rows; long traces; and as many rows as a request can have, few of
/// which start anything.
fn large(random: &mut Random, at: usize) -> Drawn {
    let timeout = random.between(3, 40) as u32;
    let (sheet, count) = match at {
        0 | 1 => (duty::full(random), 14),
        2..=4 => (duty::small(random), 700),
        _ => (duty::small(random), MOST_PAYLOAD / (4 * TRACE_WIDTH)),
    };
    let names = Names::of(random, &sheet);
    let mut rows = rows(random, &names, timeout, count);
    rows.iter_mut().enumerate().for_each(|(at, row)| {
        row.minute = row.minute.min(1 << 31);
        let few = count > 1_000 && at % 40 != 0;
        row.kind = if few && row.kind == START { QUESTION } else { row.kind };
    });
    let (kind, sheet, rows) = ("trace: large", sheet.words(), words(&rows));
    let room = answers(&sheet, timeout, &rows);
    Drawn { kind, name: format!("{count} rows"), sheet, timeout, rows, room, number: Some(0) }
}

/// What a trace is, and their shares out of 100.
pub const MANNERS: [(&str, usize); 7] = [
    ("trace: right", 68),
    ("trace: wrong row", 12),
    ("trace: any words", 3),
    ("trace: crowded", 8),
    ("trace: one office", 3),
    ("trace: damaged sheet", 3),
    ("trace: spoiled sheet", 3),
];

fn any(random: &mut Random, _: usize) -> Drawn {
    let kind = random.manner(&MANNERS);
    let (sheet, mut timeout, mut rows) = right(random, 0, 16);
    let mut sheet = sheet.words();
    match kind {
        "trace: one office" => sheet = duty::of_one_office(random).words(),
        "trace: damaged sheet" => sheet = duty::bad(random, false),
        "trace: spoiled sheet" => sheet = duty::bad(random, true),
        "trace: crowded" => {
            let own = duty::any(random);
            let (names, how) = (Names::of(random, &own), random.below(CROWDS.len()));
            sheet = own.words();
            (timeout, rows) = crowd(random, &names, how);
        }
        _ => {}
    }
    let rows = match kind {
        "trace: wrong row" if !rows.is_empty() => {
            let (at, fault) = (random.below(rows.len()), random.below(FAULTS.len()));
            with_fault(random, &rows, at, fault)
        }
        "trace: any words" => (0..random.below(24)).map(|_| random.below(5) as u32).collect(),
        _ => words(&rows),
    };
    let room = some_room(random, &sheet, timeout, &rows);
    Drawn { kind, name: String::new(), sheet, timeout, rows, room, number: None }
}
