//! What taking out must have been asked and answered, goal by goal.

use crate::goals::rooms::{chosen, room_goal, ROOMS};
use crate::model::contents::Contents;
use crate::model::limits::{MOST_EDGES, MOST_NODES, MOST_OFFICES};
use crate::model::marks::{has, mark_of};
use crate::model::sheet::*;
use crate::model::take_out::own;
use crate::trial::request::{Expected, Request};

const OFFICES: [&str; 6] = [
    "office 0 of one",
    "office 0 of several",
    "office 2 of one",
    "the office above the most",
    "the second office above the most",
    "office 4294967295",
];

const TAKEN: [&str; 14] = [
    "office 1 of one",
    "office 1 of several",
    "office 2 of several",
    "of an empty sheet",
    "a node left out",
    "an edge left out between ends that stay",
    "an end renumbered",
    "nothing is left",
    "nodes are left and no edge",
    "everything stays, of several offices",
    "a row of several offices",
    "a row of office 2 alone",
    "the most nodes",
    "the most edges",
];

pub fn needed() -> Vec<String> {
    let numbers = (1..=17).chain([20, 25]);
    let mut goals: Vec<String> = numbers.map(|number| format!("refusal {number}")).collect();
    goals.extend(OFFICES.map(|goal| format!("refused, {goal}")));
    goals.extend(TAKEN.map(|goal| format!("taken out, {goal}")));
    goals.extend(ROOMS.map(String::from));
    goals
}

/// The goals one case meets, from what is expected of it.
pub fn met(request: &Request, expected: &Expected) -> Vec<String> {
    let words = words_of(&request.first);
    let (number, office) = (expected.reply[0], request.numbers[0]);
    let mut goals = match number {
        0 => Vec::new(),
        _ => vec![format!("refusal {number}")],
    };
    if number == 20 {
        goals.extend(chosen(&OFFICES, &bad_office(office, office_count(&words)), "refused"));
    }
    if matches!(number, 0 | 25) {
        let whole = Contents::of(&words);
        let part = own(&whole, office);
        if number == 0 {
            goals.extend(chosen(
                &TAKEN,
                &taken(&whole, &part, office_count(&words), office),
                "taken out",
            ));
        }
        goals.extend(room_goal(part.words(1).len(), request.out_len).map(String::from));
    }
    goals
}

fn bad_office(office: u32, count: u32) -> [bool; 6] {
    [
        [office, count] == [0, 1],
        [office, count] == [0, MOST_OFFICES],
        [office, count] == [2, 1],
        [office, count] == [MOST_OFFICES + 1, MOST_OFFICES],
        office == MOST_OFFICES + 2,
        office == u32::MAX,
    ]
}

/// In the order of the goals.
fn taken(whole: &Contents, part: &Contents, count: u32, office: u32) -> [bool; 14] {
    let (all, kept) = (whole.nodes.len(), part.nodes.len());
    let stays =
        |link: &(u32, _, _)| part.nodes.contains_key(&link.1) && part.nodes.contains_key(&link.2);
    let mut others = whole.edges.iter().filter(|(_, &offices)| !has(offices, office));
    let mut marks = whole.nodes.values().chain(whole.edges.values());
    let lowest_out = whole.nodes.iter().find(|(_, &offices)| !has(offices, office));
    let after = |link: &(u32, _, _)| lowest_out.is_some_and(|(out, _)| link.2 > *out);
    [
        count == 1,
        count > 1 && office == 1,
        count > 1 && office == 2,
        all == 0,
        kept < all,
        others.any(|(link, _)| stays(link)),
        part.edges.keys().any(after),
        all > 0 && kept == 0,
        kept > 0 && part.edges.is_empty() && !whole.edges.is_empty(),
        count > 1 && kept == all && all > 0 && part.edges.len() == whole.edges.len(),
        marks.clone().any(|&offices| offices.count_ones() > 1),
        office == 2 && marks.any(|&offices| offices == mark_of(2)),
        kept == MOST_NODES,
        part.edges.len() == MOST_EDGES,
    ]
}
