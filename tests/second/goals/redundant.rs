//! What question 10 must have listed and left out, kind by kind.

use std::collections::BTreeSet;

use crate::model::marks::next_office;
use crate::model::office::{Office, Side};
use crate::model::reach::Reach;
use crate::model::redundant::{edges_at, redundant_rows, Edge};
use crate::model::sheet::*;

const KINDS: [(u32, &str); 5] = [
    (MEMBER, "member"),
    (CONTAINED, "containment"),
    (GRANT, "grant"),
    (BAN, "ban"),
    (APPLIES, "applies"),
];

/// What a ban row at the office, or at the other one, makes of a member edge.
const MEMBERS: [&str; 6] = [
    "member beside bans redundant by two others",
    "member beside bans redundant by one other in a ring",
    "member beside bans left out though another is contained",
    "member beside bans left out though another contains it",
    "member left out for a ban row that no path uses",
    "member redundant without bans though the other office has one",
];

pub fn needed() -> Vec<String> {
    let mut goals = MEMBERS.map(String::from).to_vec();
    for (kind, name) in KINDS {
        goals.push(format!("{name} left out"));
        if kind != APPLIES {
            let ways = ["in a ring", "in a chain", "at the other office alone"];
            goals.extend(ways.map(|way| format!("{name} redundant {way}")));
        }
    }
    goals.push("members of a ring, each redundant by the other".to_string());
    goals.push("containment left out though the ring leads round to it".to_string());
    goals
}

pub fn met(reach: &Reach, words: &[u32], office: u32, written: &[u32]) -> Vec<String> {
    let listed: BTreeSet<u32> = written.iter().copied().collect();
    let other = next_office(office, office_count(words));
    let elsewhere: BTreeSet<u32> = redundant_rows(words, other).into_iter().collect();
    let bans_elsewhere = !Office::of(words, other).ban.is_empty();
    let mut goals = BTreeSet::new();
    for (row, edge) in edges_at(words, office) {
        let name = KINDS[edge.0 as usize - 1].1;
        if edge.0 == MEMBER {
            let met = of_member(reach, &edge, listed.contains(&row), bans_elsewhere);
            goals.extend(
                MEMBERS.iter().zip(met).filter(|(_, met)| *met).map(|(goal, _)| goal.to_string()),
            );
        }
        if listed.contains(&row) {
            let way = if in_ring(reach, &edge) { "in a ring" } else { "in a chain" };
            goals.insert(format!("{name} redundant {way}"));
            continue;
        }
        goals.insert(format!("{name} left out"));
        if elsewhere.contains(&row) {
            goals.insert(format!("{name} redundant at the other office alone"));
        }
        if edge.0 == CONTAINED && leads_round(reach, &edge) {
            goals.insert("containment left out though the ring leads round to it".to_string());
        }
    }
    if equal_members(reach) {
        goals.insert("members of a ring, each redundant by the other".to_string());
    }
    goals.into_iter().collect()
}

/// In the order of the goals.
fn of_member(reach: &Reach, edge: &Edge, listed: bool, bans_elsewhere: bool) -> [bool; 6] {
    let (person, category) = (edge.1 .0, edge.2 .0);
    let contained = |other: u32| reach.leads(Side::Grant, other, category);
    let containing = |other: u32| reach.leads(Side::Grant, category, other);
    let others = || reach.own(person).filter(|&other| other != category);
    let one_for_both = others().any(|other| contained(other) && containing(other));
    let bans = !reach.office.ban.is_empty();
    let left_out = bans && !listed;
    let unused = || reach.office.persons.iter().all(|&it| reach.pairs(Side::Ban, it).is_empty());
    [
        bans && listed && !one_for_both,
        bans && listed && one_for_both,
        left_out && others().any(contained),
        left_out && others().any(containing),
        left_out && others().any(contained) && unused(),
        !bans && listed && bans_elsewhere,
    ]
}

/// Whether the edge's own category, or both of them, are on a ring.
fn in_ring(reach: &Reach, edge: &Edge) -> bool {
    let &(kind, from, to) = edge;
    match kind {
        MEMBER => reach.on_ring(to.0),
        CONTAINED => reach.leads(Side::Grant, to.0, from.0),
        _ => reach.on_ring(from.0),
    }
}

/// Another first step leads to the end too, but only back through the start:
/// the edge was not listed.
fn leads_round(reach: &Reach, edge: &Edge) -> bool {
    let (low, high) = (edge.1 .0, edge.2 .0);
    let steps = reach.office.contained.range((low, 0)..=(low, u32::MAX));
    let mut others = steps.filter(|pair| pair.1 != high);
    others.any(|pair| reach.leads(Side::Grant, pair.1, high))
}

fn equal_members(reach: &Reach) -> bool {
    let equal = |one: u32, other: u32| {
        one != other && reach.leads(Side::Grant, one, other) && reach.leads(Side::Grant, other, one)
    };
    let mut members = reach.office.member.iter();
    members.any(|&(person, one)| reach.own(person).any(|other| equal(one, other)))
}
