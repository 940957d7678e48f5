//! What a search for a row must have been asked and answered, goal by goal.

use crate::generate::additions::place_among;
use crate::goals::rooms::chosen;
use crate::model::addition::most_rows;
use crate::model::limits::MOST_OFFICES;
use crate::model::marks::all_marks;
use crate::model::place::{place_in, Place, ROW_PLACES};
use crate::model::position::{key_of, Key, Table};
use crate::model::sheet::*;
use crate::trial::expect::wanted;
use crate::trial::request::{Expected, Request};

const NEAR: [&str; 7] = [
    "in a full table",
    "a row lower by the last word alone",
    "a row higher by the last word alone",
    "a row lower by the second word alone",
    "a row higher by the second word alone",
    "a row lower by the first word alone",
    "a row higher by the first word alone",
];

const NODE_WORDS: [&str; 7] = [
    "type 0",
    "a type above 4",
    "type 4294967295",
    "number 0",
    "number 4294967295",
    "variant 4294967295",
    "a variant on a node that has none",
];

const EDGE_WORDS: [&str; 8] = [
    "kind 0",
    "a kind above 5",
    "kind 4294967295",
    "a from row past the end",
    "from row 4294967295",
    "a to row past the end",
    "to row 4294967295",
    "a containment in itself",
];

pub fn needed(table: Table) -> Vec<String> {
    let mut goals: Vec<String> = (1..=17).map(|number| format!("refusal {number}")).collect();
    for place in ROW_PLACES.into_iter().chain([Place::Only]) {
        for several in [false, true] {
            goals.extend([true, false].map(|there| place_goal(there, place, several)));
        }
    }
    goals.extend((1..=all_marks(MOST_OFFICES)).map(offices_goal));
    for outcome in ["there", "not there"] {
        goals.extend(NEAR.map(|goal| format!("{outcome}, {goal}")));
    }
    let words: &[&str] = if table == Table::Nodes { &NODE_WORDS } else { &EDGE_WORDS };
    goals.extend(words.iter().map(|goal| format!("not there, {goal}")));
    goals
}

/// Into an empty table a row would be the only one.
fn place_goal(there: bool, place: Place, several: bool) -> String {
    let outcome = if there { "there" } else { "not there" };
    let offices = if several { "several offices" } else { "one office" };
    format!("{outcome}, {place:?}, of {offices}")
}

fn offices_goal(offices: u32) -> String {
    format!("there, of offices {offices}")
}

/// The goals one case meets, from what is expected of it.
pub fn met(request: &Request, expected: &Expected, table: Table) -> Vec<String> {
    let [number, _, _, value, row, ..] = expected.reply;
    if number != 0 {
        return vec![format!("refusal {number}")];
    }
    let (words, key) = (words_of(&request.first), wanted(request));
    let (rows, row, there) = (table.rows(&words), row as usize, value == 1);
    let place = if there { place_in(0, row, rows.len()) } else { place_among(row, rows.len()) };
    let mut goals = vec![place_goal(there, place, office_count(&words) > 1)];
    let full = rows.len() == most_rows(table, &words);
    let outcome = if there { "there" } else { "not there" };
    goals.extend(chosen(&NEAR, &near(full, &rows, key), outcome));
    if there {
        goals.push(offices_goal(rows[row][3]));
        return goals;
    }
    goals.extend(match table {
        Table::Nodes => chosen(&NODE_WORDS, &node_words(key), outcome),
        Table::Edges => chosen(&EDGE_WORDS, &edge_words(key, node_count(&words)), outcome),
    });
    goals
}

/// In the order of the goals.
fn near(full: bool, rows: &[Row], key: Key) -> [bool; 7] {
    let but_for = |at: usize, lower: bool| {
        rows.iter().map(|row| key_of(*row)).any(|own| {
            let same = (0..own.len()).all(|word| word == at || own[word] == key[word]);
            same && if lower { own[at] < key[at] } else { own[at] > key[at] }
        })
    };
    [
        full,
        but_for(2, true),
        but_for(2, false),
        but_for(1, true),
        but_for(1, false),
        but_for(0, true),
        but_for(0, false),
    ]
}

fn node_words([sort, number, variant]: Key) -> [bool; 7] {
    [
        sort == 0,
        sort > FOLIO,
        sort == u32::MAX,
        number == 0,
        number == u32::MAX,
        variant == u32::MAX,
        variant != 0 && [PERSON, CATEGORY, FOLIO].contains(&sort),
    ]
}

fn edge_words([kind, from, to]: Key, nodes: usize) -> [bool; 8] {
    [
        kind == 0,
        kind > APPLIES,
        kind == u32::MAX,
        from as usize >= nodes,
        from == u32::MAX,
        to as usize >= nodes,
        to == u32::MAX,
        kind == CONTAINED && from == to,
    ]
}
