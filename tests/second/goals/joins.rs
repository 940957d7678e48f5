//! What joining must have been asked and answered, goal by goal.

use std::collections::{BTreeMap, BTreeSet};

use crate::goals::rooms::{chosen, room_goal, ROOMS};
use crate::model::contents::{Contents, Identity, Link};
use crate::model::join::{shared, union, JOINT_OFFICES};
use crate::model::judge::judge_words;
use crate::model::limits::{MOST_EDGES, MOST_NODES};
use crate::model::marks::all_marks;
use crate::model::sheet::*;
use crate::trial::request::{Expected, Request};

const REFUSED: [&str; 10] = [
    "a bad first sheet beside two offices",
    "a bad second sheet beside two offices",
    "both sheets are bad",
    "28 of sheet 1, both of two offices",
    "28 without room",
    "29 by one node",
    "29 and too many edges",
    "29 without room",
    "30 by one edge",
    "30 without room",
];

const JOINED: [&str; 20] = [
    "nothing shared",
    "nothing shared, neither before the other",
    "equal sheets",
    "the second within the first",
    "the first within the second",
    "shared rows, and own ones in each",
    "all nodes shared and no edge",
    "an edge of the first alone between shared ends",
    "an edge of the second alone between shared ends",
    "an edge shared from different rows",
    "equal edge rows of different edges",
    "a grant in the one and a ban in the other",
    "a containment each way",
    "a deed shared by other variants alone",
    "a number shared by other types alone",
    "the first empty",
    "the second empty",
    "both empty",
    "the most nodes",
    "the most edges",
];

pub fn needed() -> Vec<String> {
    let mut goals = Vec::new();
    for sheet in 1..=2 {
        let numbers = (1..=17).chain([28]);
        goals.extend(numbers.map(|number| format!("refusal {number} of sheet {sheet}")));
    }
    goals.extend([29, 30, 25].map(|number| format!("refusal {number}")));
    goals.extend(REFUSED.map(|goal| format!("refused, {goal}")));
    goals.extend(JOINED.map(|goal| format!("joined, {goal}")));
    for offices in 1..=all_marks(JOINT_OFFICES) {
        let nodes = PERSON..=FOLIO;
        goals.extend(nodes.map(|sort| format!("joined, a node of type {sort}, offices {offices}")));
        let edges = MEMBER..=APPLIES;
        goals
            .extend(edges.map(|kind| format!("joined, an edge of kind {kind}, offices {offices}")));
    }
    goals.extend(ROOMS.map(String::from));
    goals
}

/// The goals one case meets, from what is expected of it.
pub fn met(request: &Request, expected: &Expected) -> Vec<String> {
    let (first, second) = (words_of(&request.first), words_of(&request.second));
    let [number, sheet, ..] = expected.reply;
    let mut goals = match number {
        0 => joined(&first, &second),
        25 | 29 | 30 => vec![format!("refusal {number}")],
        _ => vec![format!("refusal {number} of sheet {sheet}")],
    };
    let met = refused(&first, &second, request.out_len, number);
    goals.extend(chosen(&REFUSED, &met, "refused"));
    if matches!(number, 0 | 25) {
        let length =
            union(&Contents::of(&first), &Contents::of(&second)).words(JOINT_OFFICES).len();
        goals.extend(room_goal(length, request.out_len).map(String::from));
    }
    goals
}

/// In the order of the goals.
fn refused(first: &[u32], second: &[u32], room: usize, number: u32) -> [bool; 10] {
    let bad = [first, second].map(|words| judge_words(words).number != 0);
    let two = [first, second].map(|words| words.get(1).is_some_and(|&count| count > 1));
    let unions = || {
        let all = union(&Contents::of(first), &Contents::of(second));
        (all.nodes.len(), all.edges.len())
    };
    let (nodes, edges) = if matches!(number, 29 | 30) { unions() } else { (0, 0) };
    [
        bad == [true, false] && two[1],
        bad == [false, true] && two[0],
        bad == [true, true],
        number == 28 && two == [true, true],
        number == 28 && room == 0,
        nodes == MOST_NODES + 1 && number == 29,
        edges > MOST_EDGES && number == 29,
        number == 29 && room == 0,
        edges == MOST_EDGES + 1 && number == 30,
        number == 30 && room == 0,
    ]
}

fn joined(first: &[u32], second: &[u32]) -> Vec<String> {
    let (one, other) = (Contents::of(first), Contents::of(second));
    let met = chosen(&JOINED, &related(first, second, &one, &other), "joined").into_iter();
    let joint = union(&one, &other);
    let nodes = joint.nodes.iter().map(|(identity, offices)| {
        format!("joined, a node of type {}, offices {offices}", identity.0)
    });
    let edges = joint
        .edges
        .iter()
        .map(|(link, offices)| format!("joined, an edge of kind {}, offices {offices}", link.0));
    let all: BTreeSet<String> = met.chain(nodes).chain(edges).collect();
    all.into_iter().collect()
}

/// In the order of the goals.
fn related(first: &[u32], second: &[u32], one: &Contents, other: &Contents) -> [bool; 20] {
    let joint = union(one, other);
    let nodes = shared(&one.nodes, &other.nodes) as usize;
    let edges = shared(&one.edges, &other.edges) as usize;
    let empty = [one.nodes.is_empty(), other.nodes.is_empty()];
    let apart = nodes == 0 && empty == [false, false];
    let equal_nodes = nodes == joint.nodes.len();
    let inner = |part: &Contents, whole: &Contents| {
        nodes == part.nodes.len() && edges == part.edges.len() && nodes < whole.nodes.len()
    };
    let own_rows =
        |contents: &Contents| nodes < contents.nodes.len() && edges < contents.edges.len();
    let between = |offices: u32| between_shared(&joint, offices);
    [
        apart,
        apart && one.nodes.keys().next() < other.nodes.keys().last() && !ordered(one, other),
        edges > 0 && one == other,
        nodes > 0 && inner(other, one),
        nodes > 0 && inner(one, other),
        nodes > 0 && edges > 0 && own_rows(one) && own_rows(other),
        equal_nodes && edges == 0 && !one.edges.is_empty() && !other.edges.is_empty(),
        between(1),
        between(2),
        edges > 0 && moved(first, second),
        mistaken(first, second),
        crossed(one, other, |&(kind, from, to)| (kind == GRANT).then_some((BAN, from, to)))
            || crossed(one, other, |&(kind, from, to)| (kind == BAN).then_some((GRANT, from, to))),
        crossed(one, other, |&(kind, from, to)| (kind == CONTAINED).then_some((kind, to, from))),
        alike(one, other, |it| (it.0 == DEED).then_some((it.0, it.1))),
        alike(one, other, |it| Some((0, it.1))),
        empty == [true, false],
        empty == [false, true],
        empty == [true, true],
        joint.nodes.len() == MOST_NODES,
        joint.edges.len() == MOST_EDGES,
    ]
}

/// All of one of them before all of the other.
fn ordered(one: &Contents, other: &Contents) -> bool {
    let before =
        |low: &Contents, high: &Contents| low.nodes.keys().last() < high.nodes.keys().next();
    before(one, other) || before(other, one)
}

/// Marking it by its ends would give it both offices.
fn between_shared(joint: &Contents, offices: u32) -> bool {
    let shared = |end: &Identity| joint.nodes[end] == all_marks(JOINT_OFFICES);
    let mut own = joint.edges.iter().filter(|(_, &mark)| mark == offices);
    own.any(|(link, _)| shared(&link.1) && shared(&link.2))
}

/// Each edge with its row's words.
fn rows(words: &[u32]) -> BTreeMap<Link, Vec<u32>> {
    let nodes = node_rows(words);
    let end = |row: u32| {
        let [sort, number, variant, _] = nodes[row as usize];
        (sort, number, variant)
    };
    let link = |row: &[u32]| (row[0], end(row[1]), end(row[2]));
    edge_rows(words).map(|row| (link(row), row[..3].to_vec())).collect()
}

/// Whether one edge stands in both with other words.
fn moved(first: &[u32], second: &[u32]) -> bool {
    let (one, other) = (rows(first), rows(second));
    one.iter().any(|(link, row)| other.get(link).is_some_and(|there| there != row))
}

/// Whether the same words are another edge.
fn mistaken(first: &[u32], second: &[u32]) -> bool {
    let (one, other) = (rows(first), rows(second));
    let there: BTreeMap<&Vec<u32>, &Link> = other.iter().map(|(link, row)| (row, link)).collect();
    one.iter().any(|(link, row)| there.get(row).is_some_and(|other| *other != link))
}

/// Whether an edge of the one alone has such a counterpart in the other alone.
fn crossed(one: &Contents, other: &Contents, turn: impl Fn(&Link) -> Option<Link>) -> bool {
    let alone = |link: &&Link| !other.edges.contains_key(link);
    let mut turned = one.edges.keys().filter(alone).filter_map(turn);
    turned.any(|link| other.edges.contains_key(&link) && !one.edges.contains_key(&link))
}

/// Whether two that are not the same identity would be taken for one.
fn alike(
    one: &Contents,
    other: &Contents,
    named: impl Fn(&Identity) -> Option<(u32, u32)>,
) -> bool {
    let alone = |own: &Contents, there: &Contents| -> BTreeSet<(u32, u32)> {
        let own = own.nodes.keys().filter(|identity| !there.nodes.contains_key(identity));
        own.filter_map(&named).collect()
    };
    !alone(one, other).is_disjoint(&alone(other, one))
}
