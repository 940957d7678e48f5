//! What adding a row must have been asked and answered, goal by goal; and what must have
//! been built row by row, and asked after an addition.

use crate::generate::additions::{numbers_of, pairs_of, place_among};
use crate::goals::rooms::{chosen, room_goal, ROOMS};
use crate::model::addition::{faults, most_rows, width};
use crate::model::limits::MOST_OFFICES;
use crate::model::marks::all_marks;
use crate::model::place::{Place, ROW_PLACES};
use crate::model::position::{key_of, Table, TABLES};
use crate::model::sheet::*;
use crate::trial::expect::row_of;
use crate::trial::operation::{adding, called, finding, CHECK_WORDS, READ_LISTING};
use crate::trial::request::{Expected, Request};

const ADDED: [&str; 3] =
    ["the last free row", "beside a full table", "with words behind it that stay"];

const NODE_ADDED: [&str; 8] = [
    "no edge",
    "no end goes up",
    "every end goes up",
    "the end at its place goes up",
    "the end before its place stays",
    "one end of an edge goes up",
    "both ends of an edge go up",
    "another variant of a deed",
];

const EDGE_ADDED: [&str; 4] = [
    "with fewer offices than its ends have",
    "the other way round stands",
    "another kind stands between its ends",
    "the last row's ends",
];

const NODE_FAULTS: [&str; 15] = [
    "6, type 0",
    "6, type 5",
    "6, type 4294967295",
    "7, number 0",
    "7, a person's variant",
    "7, a category's variant",
    "7, a folio's variant",
    "8, offices 0",
    "8, offices 2 of one",
    "8, offices 3 of one",
    "8, offices above the most",
    "8, offices 4294967295",
    "9, with the same offices",
    "9, with other offices",
    "4, though edges are few",
];

const EDGE_FAULTS: [&str; 25] = [
    "11, kind 0",
    "11, kind 6",
    "11, kind 4294967295",
    "12, the from row",
    "12, the to row",
    "12, both rows",
    "12, the row after the last",
    "12, row 4294967295",
    "12, a row that is one again in 32 bits",
    "12, without a node",
    "13, the from type",
    "13, the to type",
    "13, both types",
    "14",
    "15, offices 0",
    "15, offices 2 of one",
    "15, offices 3 of one",
    "15, offices above the most",
    "15, offices 4294967295",
    "15, not the from row's",
    "15, not the to row's",
    "15, neither row's",
    "16, with the same offices",
    "16, with other offices",
    "4, though nodes are few",
];

pub fn needed(table: Table) -> Vec<String> {
    let mut goals = Vec::new();
    for number in 1..=17 {
        goals.push(format!("the sheet's {number}"));
        goals.extend(["the row is bad too", "no room"].map(|more| sheet_goal(number, more)));
    }
    let own = numbers_of(table).iter().chain(&[4, 25]);
    goals.extend(own.map(|number| format!("the row's {number}")));
    goals.extend(pairs_of(table).iter().map(|pair| pair_goal(pair[0], pair[1])));
    for place in ROW_PLACES.into_iter().chain([Place::Only]) {
        goals.extend([false, true].map(|several| place_goal(place, several)));
    }
    let last = if table == Table::Nodes { FOLIO } else { APPLIES };
    goals.extend((1..=last).map(|first| first_goal(table, first)));
    goals.extend((1..=all_marks(MOST_OFFICES)).map(|it| format!("added, offices {it}")));
    goals.extend(ADDED.map(|goal| format!("added, {goal}")));
    let (more, refused): (&[&str], &[&str]) = match table {
        Table::Nodes => (&NODE_ADDED, &NODE_FAULTS),
        Table::Edges => (&EDGE_ADDED, &EDGE_FAULTS),
    };
    goals.extend(more.iter().map(|goal| format!("added, {goal}")));
    goals.extend(refused.iter().map(|goal| format!("refused, {goal}")));
    goals.extend(ROOMS.map(String::from));
    goals
}

fn sheet_goal(number: u32, more: &str) -> String {
    format!("the sheet's {number}, and {more}")
}

pub fn pair_goal(first: u32, second: u32) -> String {
    format!("the row's {first}, and {second} too")
}

fn place_goal(place: Place, several: bool) -> String {
    format!("added, {place:?}, of {}", if several { "several offices" } else { "one office" })
}

fn first_goal(table: Table, first: u32) -> String {
    format!("added, {} {first}", if table == Table::Nodes { "type" } else { "kind" })
}

/// The goals one case meets, from what is expected of it.
pub fn met(request: &Request, expected: &Expected, table: Table) -> Vec<String> {
    let (words, row, room) = (words_of(&request.first), row_of(request), request.out_len);
    let [number, sheet, _, at, ..] = expected.reply;
    if sheet == 1 {
        return of_sheet(number, table, row, room);
    }
    let all = faults(table, row, &words, room);
    let mut goals = match all.split_first() {
        None => was_added(table, row, &words, at, room),
        Some((first, others)) => {
            let mut goals: Vec<String> = others.iter().map(|it| pair_goal(*first, *it)).collect();
            goals.push(format!("the row's {first}"));
            goals.extend(refused(table, *first, row, &words));
            goals
        }
    };
    if matches!(number, 0 | 25) {
        let length = words.len() + width(table, &words);
        goals.extend(room_goal(length, room).map(String::from));
    }
    goals
}

/// The row is bad by itself, whatever the sheet would be.
fn of_sheet(number: u32, table: Table, row: Row, room: usize) -> Vec<String> {
    let last = if table == Table::Nodes { FOLIO } else { APPLIES };
    let bad = !(1..=last).contains(&row[0]) || row[3] == 0;
    let mut goals = vec![format!("the sheet's {number}")];
    goals.extend(bad.then(|| sheet_goal(number, "the row is bad too")));
    goals.extend((room == 0).then(|| sheet_goal(number, "no room")));
    goals
}

fn was_added(table: Table, row: Row, words: &[u32], at: u32, room: usize) -> Vec<String> {
    let counts = TABLES.map(|own| table_free(own, words));
    let count = table.rows(words).len();
    let place = place_among(at as usize, count);
    let mut goals = vec![place_goal(place, office_count(words) > 1)];
    goals.push(first_goal(table, row[0]));
    goals.push(format!("added, offices {}", row[3]));
    let met = [
        counts[table as usize] == 1,
        counts[1 - table as usize] == 0,
        room > words.len() + width(table, words),
    ];
    goals.extend(chosen(&ADDED, &met, "added"));
    goals.extend(match table {
        Table::Nodes => chosen(&NODE_ADDED, &node_added(row, words, at), "added"),
        Table::Edges => chosen(&EDGE_ADDED, &edge_added(row, words), "added"),
    });
    goals
}

/// How many rows more the table can have.
fn table_free(table: Table, words: &[u32]) -> usize {
    most_rows(table, words) - table.rows(words).len()
}

/// In the order of the goals.
fn node_added(row: Row, words: &[u32], at: u32) -> [bool; 8] {
    let edges = Table::Edges.rows(words);
    let ends: Vec<u32> = edges.iter().flat_map(|edge| [edge[1], edge[2]]).collect();
    let split = |up: usize| {
        edges.iter().any(|edge| [edge[1], edge[2]].iter().filter(|&&end| end >= at).count() == up)
    };
    let namesake = |own: &Row| own[0] == DEED && own[..2] == row[..2];
    [
        edges.is_empty(),
        !ends.is_empty() && ends.iter().all(|&end| end < at),
        !ends.is_empty() && ends.iter().all(|&end| end >= at),
        ends.contains(&at),
        at > 0 && ends.contains(&(at - 1)),
        split(1),
        split(2),
        node_rows(words).iter().any(namesake),
    ]
}

fn edge_added(row: Row, words: &[u32]) -> [bool; 4] {
    let (nodes, edges) = (node_rows(words), Table::Edges.rows(words));
    let [kind, from, to, offices] = row;
    let common = nodes[from as usize][3] & nodes[to as usize][3];
    let stands = |key: [u32; 3]| edges.iter().any(|edge| key_of(*edge) == key);
    [
        offices != common,
        kind == CONTAINED && stands([kind, to, from]),
        [GRANT, BAN].contains(&kind) && stands([GRANT + BAN - kind, from, to]),
        [from, to].contains(&(nodes.len() as u32 - 1)),
    ]
}

fn refused(table: Table, number: u32, row: Row, words: &[u32]) -> Vec<String> {
    let all: Vec<(&str, bool)> = match table {
        Table::Nodes => NODE_FAULTS.into_iter().zip(node_faults(row, words)).collect(),
        Table::Edges => EDGE_FAULTS.into_iter().zip(edge_faults(row, words)).collect(),
    };
    let own = |goal: &str| goal.split(',').next() == Some(&number.to_string());
    let met = all.into_iter().filter(|(goal, met)| *met && own(goal));
    met.map(|(goal, _)| format!("refused, {goal}")).collect()
}

/// Of a row that is refused by the number with which its goal begins.
fn node_faults(row: Row, words: &[u32]) -> [bool; 15] {
    let [sort, number, variant, offices] = row;
    let one = office_count(words) == 1;
    let same = node_rows(words).contains(&row);
    [
        sort == 0,
        sort == FOLIO + 1,
        sort == u32::MAX,
        number == 0,
        sort == PERSON && variant != 0,
        sort == CATEGORY && variant != 0,
        sort == FOLIO && variant != 0,
        offices == 0,
        one && offices == 2,
        one && offices == 3,
        offices == all_marks(MOST_OFFICES) + 1,
        offices == u32::MAX,
        same,
        !same,
        table_free(Table::Edges, words) > 0,
    ]
}

fn edge_faults(row: Row, words: &[u32]) -> [bool; 25] {
    let ([kind, from, to, offices], nodes) = (row, node_rows(words));
    let count = nodes.len() as u32;
    let any = |fits: &dyn Fn(u32) -> bool| fits(from) || fits(to);
    let end = |row: u32| nodes.get(row as usize).copied().unwrap_or_default();
    let (from_sort, to_sort) = end_types(kind).unwrap_or_default();
    let unfit = [end(from)[0] != from_sort, end(to)[0] != to_sort];
    let lacks = [from, to].map(|row| offices & !end(row)[3] != 0);
    let (one, counted) = (office_count(words) == 1, offices <= all_marks(office_count(words)));
    let same = Table::Edges.rows(words).contains(&row);
    let wrapped = |row: u32| row >= 1 << 30 && row % (1 << 30) < count;
    [
        kind == 0,
        kind == APPLIES + 1,
        kind == u32::MAX,
        from >= count && to < count,
        from < count && to >= count,
        from >= count && to >= count,
        any(&|row| row == count),
        any(&|row| row == u32::MAX),
        any(&wrapped),
        count == 0,
        unfit == [true, false],
        unfit == [false, true],
        unfit == [true, true],
        true,
        offices == 0,
        one && offices == 2,
        one && offices == 3,
        offices == all_marks(MOST_OFFICES) + 1,
        offices == u32::MAX,
        counted && lacks == [true, false],
        counted && lacks == [false, true],
        counted && lacks == [true, true],
        same,
        !same,
        table_free(Table::Nodes, words) > 0,
    ]
}

/// What must have been built, and asked after an addition. Each goal names its operation.
pub fn needed_built() -> Vec<String> {
    let mut goals = Vec::new();
    for table in TABLES {
        goals.extend(HOWS.iter().flat_map(|how| building(table, how)));
        goals.extend(built(table));
        goals.extend(found_again(table));
        for office in 1..=2 {
            goals.extend((0..=3).flat_map(|value| as_before(table, office, value)));
        }
    }
    for count in [1, MOST_OFFICES] {
        goals.extend(HOWS.iter().flat_map(|how| finished(count, how)));
    }
    goals
}

/// In which order the rows of a sheet come: all nodes first, or an edge as soon as its
/// ends are there.
pub const HOWS: [&str; 2] = ["nodes first", "edges between nodes"];

pub fn building(table: Table, how: &str) -> Vec<String> {
    vec![format!("{}: a row of a sheet, {how}", called(adding(table)))]
}

pub fn built(table: Table) -> Vec<String> {
    vec![format!("{}: a row of a sheet that was built", called(finding(table)))]
}

/// A sheet of one office is listed, and another is checked.
pub fn finished(office_count: u32, how: &str) -> Vec<String> {
    let operation = if office_count == 1 { READ_LISTING } else { CHECK_WORDS };
    vec![format!("{}: a sheet that was built, {how}", called(operation))]
}

pub fn found_again(table: Table) -> Vec<String> {
    vec![format!("{}: the row that was added", called(finding(table)))]
}

/// After an edge the office is one that it is not about.
pub fn as_before(table: Table, office: u32, value: u32) -> Vec<String> {
    let more = if table == Table::Nodes { "a node" } else { "another office's edge" };
    vec![format!("question 1: answer {value} at office {office} after {more} was added")]
}
