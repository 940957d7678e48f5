//! Taking one office out of a sheet, with its refusals in the order of the
//! table.

use std::collections::BTreeMap;

use crate::model::answer::{fitting, insist, sound, Answer, Refusal};
use crate::model::contents::Contents;
use crate::model::marks::{has, mark_of};
use crate::model::sheet::office_count;

pub fn take_out(words: &[u32], office: u32, room: usize) -> Result<Answer, Refusal> {
    sound(words, 1)?;
    insist((1..=office_count(words)).contains(&office), 20)?;
    fitting(own(&Contents::of(words), office).words(1), room)
}

/// What is marked with the office, marked 1.
pub fn own(contents: &Contents, office: u32) -> Contents {
    Contents { nodes: kept(&contents.nodes, office), edges: kept(&contents.edges, office) }
}

fn kept<K: Ord + Copy>(rows: &BTreeMap<K, u32>, office: u32) -> BTreeMap<K, u32> {
    let marked = rows.iter().filter(|(_, &offices)| has(offices, office));
    marked.map(|(key, _)| (*key, mark_of(1))).collect()
}
