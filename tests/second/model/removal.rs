//! Removing an edge at an office, and whether that changes an answer.

use std::collections::BTreeSet;

use crate::model::answer::{at_office, joint};
use crate::model::judge::{judge_words, ACCEPTED};
use crate::model::limits::edge_offset;
use crate::model::marks::mark_of;
use crate::model::office::{Ask, Office};
use crate::model::sheet::*;

/// An edge removed at an office.
pub struct Removal {
    pub office: u32,
    pub row: u32,
    pub kind: u32,
    /// Whether the row went with its last mark.
    pub gone: bool,
    /// The sheet without it.
    pub rest: Vec<u32>,
}

/// That office's mark goes from the row, and the row with its last mark. Everything
/// else is as it was: no node goes, so the ends of the other rows stay.
pub fn remove(words: &[u32], office: u32, row: u32) -> Removal {
    let width = form(words).edge_width();
    let at = edge_offset(node_count(words)) + width * row as usize;
    let (mut rest, kind) = (words.to_vec(), words[at]);
    rest[at + 3] &= !mark_of(office);
    let gone = rest[at + 3] == 0;
    if gone {
        rest.drain(at..at + width);
        rest[3] -= 1;
    }
    Removal { office, row, kind, gone, rest }
}

/// Each edge that is listed at an office, removed there and nowhere else: one at a
/// time, office by office.
pub fn removals(words: &[u32], listed: impl Fn(&[u32], u32) -> Vec<u32>) -> Vec<Removal> {
    let offices = 1..=office_count(words);
    let rows =
        offices.flat_map(|office| listed(words, office).into_iter().map(move |row| (office, row)));
    rows.map(|(office, row)| remove(words, office, row)).collect()
}

/// What is said of one triple: question 1 at each office, its answer or its refusal, and
/// the joint answer with its office under each rule.
#[derive(PartialEq)]
pub struct Said {
    pub ask: Ask,
    pub at: Vec<Result<u32, u32>>,
    pub joint: [(u32, u32); 3],
}

/// Every person, deed number and folio of a sheet, each with every other.
pub fn every_answer(words: &[u32]) -> Vec<Said> {
    let offices: Vec<Office> =
        (1..=office_count(words)).map(|office| Office::of(words, office)).collect();
    let known = Office::stitched(words);
    let deeds: BTreeSet<u32> = known.deeds.iter().map(|deed| deed.0).collect();
    let mut all = Vec::new();
    for &person in &known.persons {
        for &deed in &deeds {
            let folios = known.folios.iter();
            all.extend(folios.map(|&folio| said(&offices, Ask { person, deed, folio })));
        }
    }
    all
}

/// An office that does not know all three has no path of them.
fn said(offices: &[Office], ask: Ask) -> Said {
    let one = |office: &Office| match at_office(office, &ask) {
        Ok(answer) => Ok(answer.value),
        Err(refusal) => Err(refusal.number),
    };
    let at: Vec<Result<u32, u32>> = offices.iter().map(one).collect();
    let values: Vec<u32> = at.iter().map(|said| said.unwrap_or(0)).collect();
    Said { ask, joint: [1, 2, 3].map(|rule| joint(rule, &values)), at }
}

/// What a removal did to a sheet that said this before: it is refused, or an answer
/// is another.
pub fn harm(before: &[Said], rest: &[u32]) -> Option<String> {
    match judge_words(rest) {
        ACCEPTED => {}
        verdict => return Some(format!("refused: {verdict:?}")),
    }
    let after = every_answer(rest);
    let changed = before.iter().zip(&after).find(|(before, after)| before != after);
    let lost = changed.map(|(before, after)| {
        let (said, now) = ((&before.at, before.joint), (&after.at, after.joint));
        format!("{:?} was answered {said:?}, and is now {now:?}", before.ask)
    });
    let count = format!("{} triples, and now {}", before.len(), after.len());
    lost.or((before.len() != after.len()).then_some(count))
}
