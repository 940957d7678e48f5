//! Joining two one-office sheets, with its refusals in the order of the table.

use std::collections::BTreeMap;

use crate::model::answer::{fitting, insist, sound, Answer, Refusal};
use crate::model::contents::Contents;
use crate::model::limits::MOST_NODES;
use crate::model::marks::mark_of;
use crate::model::sheet::{form, office_count};

/// A joint sheet has one office of each input.
pub const JOINT_OFFICES: u32 = 2;

pub fn join(first: &[u32], second: &[u32], room: usize) -> Result<Answer, Refusal> {
    joinable(first, second)?;
    let (one, other) = (Contents::of(first), Contents::of(second));
    let joint = union(&one, &other);
    insist(joint.nodes.len() <= MOST_NODES, 29)?;
    insist(joint.edges.len() <= form(first).most_edges(), 30)?;
    let answer = fitting(joint.words(JOINT_OFFICES), room)?;
    let extras = [shared(&one.nodes, &other.nodes), shared(&one.edges, &other.edges)];
    Ok(Answer { value: joint.nodes.len() as u32, extras, ..answer })
}

/// Both sheets are checked before the offices of the first are counted.
pub fn joinable(first: &[u32], second: &[u32]) -> Result<(), Refusal> {
    sound(first, 1)?;
    sound(second, 2)?;
    one_office(first, 1)?;
    one_office(second, 2)
}

pub fn one_office(words: &[u32], sheet: u32) -> Result<(), Refusal> {
    match office_count(words) {
        1 => Ok(()),
        _ => Err(Refusal { number: 28, sheet, row: 0 }),
    }
}

/// Everything that stands in one of them, with office 1 where the first has it
/// and office 2 where the second does.
pub fn union(one: &Contents, other: &Contents) -> Contents {
    Contents { nodes: marked(&one.nodes, &other.nodes), edges: marked(&one.edges, &other.edges) }
}

fn marked<K: Ord + Copy>(one: &BTreeMap<K, u32>, other: &BTreeMap<K, u32>) -> BTreeMap<K, u32> {
    let mark = |key: &K| joint_marks(one.contains_key(key), other.contains_key(key));
    one.keys().chain(other.keys()).map(|key| (*key, mark(key))).collect()
}

/// The marks of what the first has, or the second, or both.
pub fn joint_marks(first: bool, second: bool) -> u32 {
    mark_of(1) * u32::from(first) + mark_of(2) * u32::from(second)
}

/// How many stand in both.
pub fn shared<K: Ord>(one: &BTreeMap<K, u32>, other: &BTreeMap<K, u32>) -> u32 {
    one.keys().filter(|key| other.contains_key(key)).count() as u32
}
