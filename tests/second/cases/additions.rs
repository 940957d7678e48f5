//! Rows searched and rows added. First the named cases, then the tours: each refusal of
//! a sheet, each pair of refusals that one row can meet, each mark, each room, and tables
//! that are full or have one row free; then any.

use crate::cases::series::{made, Made, Maker, Series, Turn};
use crate::generate::additions::*;
use crate::generate::desk::room_for;
use crate::generate::dress::remainder;
use crate::generate::inquiry::Inquiry;
use crate::generate::random::Random;
use crate::generate::typing::crowd;
use crate::generate::{damage, make, pairs, throng};
use crate::model::addition::width;
use crate::model::judge::{judge_words, ACCEPTED};
use crate::model::limits::*;
use crate::model::marks::all_marks;
use crate::model::place::ROW_PLACES;
use crate::model::position::{Key, Table, TABLES};
use crate::model::sheet::*;
use crate::named;
use crate::trial::expect::expect;
use crate::trial::operation::{adding, finding};
use crate::trial::request::MOST_OUTPUT;

/// Each number of a sheet, by each operation, with a right row, a bad row and no room.
const TOUR: usize = 17 * 4 * 3;
/// Each pair twice.
const PAIRS: usize = 2 * (NODE_PAIRS.len() + EDGE_PAIRS.len());
/// Each mark in each table on sheets of one office and of several, twelve times: which
/// ends lack it is left to chance.
const MARKED: usize = 12 * 2 * 2 * MARKS.len();
/// Each room in each table, four times.
const ROOMED: usize = 4 * 2 * ROOMS;
/// Each count of rows: three additions and a search in each table.
const LIMITS: usize = 4 * 2 * COUNTS.len();

const MARKS: [u32; 6] = [0, 1, 2, 3, 4, u32::MAX];
const ROOMS: usize = 6;

/// Full tables, and tables with one row free.
const COUNTS: [[usize; 2]; 8] = [
    [MOST_NODES - 1, 70],
    [MOST_NODES, 70],
    [70, MOST_EDGES - 1],
    [70, MOST_EDGES],
    [MOST_NODES - 1, MOST_EDGES],
    [MOST_NODES, MOST_EDGES - 1],
    [MOST_NODES - 1, MOST_EDGES - 1],
    [MOST_NODES, MOST_EDGES],
];

const STREAM: u64 = 0x4164_6465_6433_3235;

pub fn series(seed: u64, random: usize) -> Series {
    let runs: Vec<(usize, Maker)> = vec![
        (TOUR, tour_case),
        (PAIRS, pair_case),
        (MARKED, marks_case),
        (ROOMED, room_case),
        (LIMITS, limits_case),
        (random, any_case),
    ];
    Series::new(seed, STREAM, named::additions::all(), runs)
}

pub fn searched(random: &mut Random, table: Table, key: Key, words: &[u32]) -> Inquiry {
    asked(random, finding(table), key.to_vec(), words, 0)
}

pub fn added(random: &mut Random, table: Table, row: Row, words: &[u32], room: usize) -> Inquiry {
    asked(random, adding(table), row.to_vec(), words, room)
}

fn asked(
    random: &mut Random,
    operation: u32,
    numbers: Vec<u32>,
    words: &[u32],
    room: usize,
) -> Inquiry {
    let mut sheet = bytes_of(words);
    remainder(random, &mut sheet);
    Inquiry { operation, numbers, sheet, second: Vec::new(), room }
}

/// A case that is made for one number.
fn aimed(
    random: &mut Random,
    kind: &'static str,
    name: String,
    what: Inquiry,
    number: u32,
) -> Made {
    let request = what.request(random);
    let said = expect(&request).reply[0];
    let missed = said != number;
    let slip = missed.then(|| format!("made for {number}, and this program says {said}"));
    (kind, name, request, slip)
}

/// Words of the sheet with the row.
fn exact(table: Table, words: &[u32]) -> usize {
    words.len() + width(table, words)
}

fn one_table(random: &mut Random) -> Table {
    random.pick(&TABLES)
}

/// A small one, of one office or of several.
pub fn some_sheet(random: &mut Random) -> Vec<u32> {
    let count = random.pick(&[1, MOST_OFFICES]);
    match random.below(5) {
        0 => throng::small(random).words(),
        1 => make::small(random).words(),
        _ => pairs::whole(random).marked(random, count).words(),
    }
}

/// The row is bad whatever the sheet, or there is no room, or both are right.
fn tour_case(random: &mut Random, turn: &Turn) -> Made {
    let number = 1 + (turn.at / 12) as u32;
    let (table, adds, how) = (TABLES[turn.at % 2], turn.at / 2 % 2 == 1, turn.at / 4 % 3);
    let words = words_of(&damage::aimed_anywhere(random, number));
    let name = format!("aimed at the sheet's {number}");
    if !adds {
        let key = any_key(random, table, 4);
        let inquiry = searched(random, table, key, &words);
        return made(random, "search: tour", name, inquiry);
    }
    let first = if how == 1 { random.pick(&[0, 9]) } else { 1 };
    let row = [first, random.between(1, 3) as u32, 0, random.pick(&[0, 1])];
    let room = if how == 2 { 0 } else { words.len() + 4 };
    let inquiry = added(random, table, row, &words, room);
    made(random, "add: tour", name, inquiry)
}

/// Few rows, so that a row with any two faults can be drawn; and as many of these as
/// there may be where the table is to be full.
fn pair_sheet(random: &mut Random, table: Table, full: bool) -> Vec<u32> {
    match (full, table) {
        (false, _) => make::roomy(random).words(),
        (true, Table::Nodes) => crowded(random, [MOST_NODES, 70]),
        (true, Table::Edges) => crowded(random, [70, MOST_EDGES]),
    }
}

/// So many nodes and edges, of one office or of several.
fn crowded(random: &mut Random, [nodes, edges]: [usize; 2]) -> Vec<u32> {
    let mut sheet = crowd(random, nodes, edges).marked(random, 1);
    sheet.office_count = random.pick(&[1, MOST_OFFICES]);
    let all = all_marks(sheet.office_count);
    for row in sheet.nodes.iter_mut().chain(&mut sheet.edges) {
        row[3] = all;
    }
    sheet.words()
}

fn pair_case(random: &mut Random, turn: &Turn) -> Made {
    let all =
        TABLES.iter().flat_map(|&table| pairs_of(table).iter().map(move |pair| (table, *pair)));
    let all: Vec<(Table, [u32; 2])> = all.collect();
    let (table, pair) = all[turn.at % all.len()];
    with_pair(random, table, pair)
}

fn with_pair(random: &mut Random, table: Table, pair: [u32; 2]) -> Made {
    let own: Vec<u32> = pair.into_iter().filter(|it| numbers_of(table).contains(it)).collect();
    let (words, row) = loop {
        let words = pair_sheet(random, table, pair.contains(&4));
        let drawn = match own.is_empty() {
            true => right(random, table, &words, None),
            false => faulty(random, table, &words, &own),
        };
        if let Some(row) = drawn {
            break (words, row);
        }
    };
    let enough = exact(table, &words);
    let room = match pair.contains(&25) {
        true => random.pick(&[0, enough - 1]),
        false => enough + random.below(3),
    };
    let inquiry = added(random, table, row, &words, room);
    aimed(random, "add: two faults", format!("{} and {}", pair[0], pair[1]), inquiry, pair[0])
}

fn marks_case(random: &mut Random, turn: &Turn) -> Made {
    let (table, offices) = (TABLES[turn.at % 2], MARKS[turn.at / 4 % MARKS.len()]);
    let count = [1, MOST_OFFICES][turn.at / 2 % 2];
    let (words, mut row) = loop {
        let words = pairs::whole(random).marked(random, count).words();
        if let Some(row) = right(random, table, &words, None) {
            break (words, row);
        }
    };
    row[3] = offices;
    let inquiry = added(random, table, row, &words, exact(table, &words));
    made(random, "add: marks", format!("offices {offices} of {count}"), inquiry)
}

fn room_case(random: &mut Random, turn: &Turn) -> Made {
    let table = TABLES[turn.at % 2];
    let (words, row) = with_right(random, table);
    let enough = exact(table, &words);
    let more = enough + random.between(1, 40);
    let rooms: [usize; ROOMS] = [enough, enough - 1, 0, words.len(), more, MOST_OUTPUT];
    let room = rooms[turn.at / 2 % ROOMS];
    let inquiry = added(random, table, row, &words, room);
    let number = if room < enough { 25 } else { 0 };
    aimed(random, "add: room", format!("{enough} words into {room}"), inquiry, number)
}

/// A small sheet and a row that can be added to it.
fn with_right(random: &mut Random, table: Table) -> (Vec<u32>, Row) {
    loop {
        let words = some_sheet(random);
        if let Some(row) = right(random, table, &words, None) {
            return (words, row);
        }
    }
}

/// The places and the rooms go round by themselves, so that each meets each.
fn limits_case(random: &mut Random, turn: &Turn) -> Made {
    let (counts, table, how) = (COUNTS[turn.at / 8], TABLES[turn.at / 4 % 2], turn.at % 4);
    let words = crowded(random, counts);
    let name = format!("{} nodes and {} edges", counts[0], counts[1]);
    if how == 3 {
        let key = near_key(random, table, &words);
        let inquiry = searched(random, table, key, &words);
        return made(random, "search: limits", name, inquiry);
    }
    let Some(row) = right(random, table, &words, Some(ROW_PLACES[how])) else {
        unreachable!("so few rows leave others to be added")
    };
    let enough = exact(table, &words);
    let room = [enough, enough - 1, enough + 5][(how + turn.at / 4) % 3];
    let full = counts[table as usize] == [MOST_NODES, MOST_EDGES][table as usize];
    let number = match (full, room < enough) {
        (true, _) => 4,
        (false, true) => 25,
        (false, false) => 0,
    };
    let inquiry = added(random, table, row, &words, room);
    aimed(random, "add: limits", name, inquiry, number)
}

/// What is searched or added, and their shares out of 100.
pub const MANNERS: [(&str, usize); 13] = [
    ("search: standing", 10),
    ("search: near", 12),
    ("search: any words", 8),
    ("search: damaged sheet", 4),
    ("search: spoiled sheet", 3),
    ("add: right", 12),
    ("add: at a place", 20),
    ("add: there already", 6),
    ("add: one fault", 8),
    ("add: two faults", 6),
    ("add: any words", 4),
    ("add: damaged sheet", 4),
    ("add: spoiled sheet", 3),
];

fn any_case(random: &mut Random, _: &Turn) -> Made {
    let (manner, table) = (random.manner(&MANNERS), one_table(random));
    let whole = some_sheet(random);
    if manner == "add: two faults" {
        let some: Vec<[u32; 2]> =
            pairs_of(table).iter().copied().filter(|pair| !pair.contains(&4)).collect();
        let pair = random.pick(&some);
        return with_pair(random, table, pair);
    }
    let words = match manner {
        _ if manner.ends_with("damaged sheet") => words_of(&damage::any(random)),
        _ if manner.ends_with("spoiled sheet") => pairs::spoiled(random, &whole),
        _ => whole.clone(),
    };
    let inquiry = match manner.starts_with("search") {
        true => any_search(random, manner, table, &whole, &words),
        false => any_addition(random, manner, table, &whole, &words),
    };
    made(random, manner, String::new(), inquiry)
}

/// What is searched is drawn from the whole sheet, though another may lie there.
fn any_search(
    random: &mut Random,
    manner: &str,
    table: Table,
    whole: &[u32],
    words: &[u32],
) -> Inquiry {
    let nodes = node_count(whole);
    let key = match manner {
        "search: near" => near_key(random, table, whole),
        "search: any words" => any_key(random, table, nodes),
        _ => standing_key(random, table, whole).unwrap_or_else(|| any_key(random, table, nodes)),
    };
    searched(random, table, key, words)
}

fn any_addition(
    random: &mut Random,
    manner: &str,
    table: Table,
    whole: &[u32],
    words: &[u32],
) -> Inquiry {
    let place = random.pick(&ROW_PLACES);
    let number = random.pick(numbers_of(table));
    let drawn = match manner {
        "add: at a place" => right(random, table, whole, Some(place)),
        "add: there already" => there(random, table, whole),
        "add: one fault" => faulty(random, table, whole, &[number]),
        "add: any words" => None,
        _ => right(random, table, whole, None),
    };
    let row = drawn.unwrap_or_else(|| {
        let [first, second, third] = any_key(random, table, node_count(whole));
        [first, second, third, random.pick(&MARKS)]
    });
    let length = match judge_words(words) {
        ACCEPTED => exact(table, words),
        _ => random.pick(&[0, HEADER, 20]),
    };
    let room = match manner {
        "add: right" | "add: at a place" | "add: one fault" => {
            length + random.pick(&[0, 0, 0, 1, 2, 9])
        }
        _ => room_for(random, length),
    };
    added(random, table, row, words, room)
}
