//! Question 10, edge by edge. Each edge is judged by the identities of its ends
//! and the office's sets; its row number is used to name it and for nothing
//! else.

use std::collections::BTreeSet;

use crate::model::closure::Ranks;
use crate::model::marks::has;
use crate::model::office::{Deed, Office, Side};
use crate::model::reach::Reach;
use crate::model::sheet::*;

/// An edge by its kind and its ends, each a number and a variant.
pub type Edge = (u32, Deed, Deed);

/// Every edge marked with the office, with its row.
pub fn edges_at(words: &[u32], office: u32) -> Vec<(u32, Edge)> {
    let nodes = node_rows(words);
    let end = |row: u32| (nodes[row as usize][1], nodes[row as usize][2]);
    let marked = edge_rows(words).enumerate().filter(|(_, row)| has(row[3], office));
    marked.map(|(at, row)| (at as u32, (row[0], end(row[1]), end(row[2])))).collect()
}

pub fn redundant_rows(words: &[u32], office: u32) -> Vec<u32> {
    let here = Office::of(words, office);
    let reach = Reach::of(&here);
    let bypassed = bypassed(&here);
    let redundant = |edge: &Edge| is_redundant(&reach, &bypassed, edge);
    let edges = edges_at(words, office).into_iter();
    edges.filter(|(_, edge)| redundant(edge)).map(|(at, _)| at).collect()
}

pub fn is_redundant(reach: &Reach, bypassed: &BTreeSet<(u32, u32)>, edge: &Edge) -> bool {
    let &(kind, from, to) = edge;
    match kind {
        MEMBER => member(reach, from.0, to.0),
        CONTAINED => bypassed.contains(&(from.0, to.0)),
        GRANT => right(reach, Side::Grant, from.0, to),
        BAN => right(reach, Side::Ban, from.0, to),
        _ => false,
    }
}

/// Also a member of another category that is contained in this one, by which no
/// grant is lost. Bans walk the other way: where the office has a ban row, used by a
/// path or not, the person is also a member of another that contains this one. In a
/// ring the two may be one. Another category is never no step away.
fn member(reach: &Reach, person: u32, category: u32) -> bool {
    let others = || reach.own(person).filter(|&other| other != category);
    let contained = others().any(|other| reach.leads(Side::Grant, other, category));
    let containing = others().any(|other| reach.leads(Side::Ban, other, category));
    contained && (containing || reach.office.ban.is_empty())
}

/// Another category that a path of this side may go on to has the right too:
/// a containing one for a grant, a contained one for a ban.
fn right(reach: &Reach, side: Side, category: u32, deed: Deed) -> bool {
    let rights = reach.office.rights(side).iter();
    let mut others = rights.filter(|pair| pair.1 == deed && pair.0 != category);
    others.any(|pair| reach.leads(side, category, pair.0))
}

/// The containments with a path of two or more beside them. Its first step goes
/// to another category than the containment's end, and from there on it never
/// comes back to the start: so the steps out of the start are taken away before
/// the closure is made.
pub fn bypassed(office: &Office) -> BTreeSet<(u32, u32)> {
    let ranks = Ranks::of(office, Side::Grant);
    let mut found = BTreeSet::new();
    for &low in &office.categories {
        let steps = office.contained.range((low, 0)..=(low, u32::MAX));
        let next: Vec<u32> = steps.map(|pair| pair.1).collect();
        // A path beside the only step would have no first step.
        if next.len() < 2 {
            continue;
        }
        let onward = ranks.without_steps_from(low).closure();
        let leads = |from: u32, to: u32| onward[ranks.rank(from)].has(ranks.rank(to));
        let beside = |high: u32| next.iter().any(|&first| first != high && leads(first, high));
        found.extend(next.iter().filter(|&&high| beside(high)).map(|&high| (low, high)));
    }
    found
}
