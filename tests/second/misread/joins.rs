//! Wrong versions of joining, in the rows, their marks or what is counted.

use std::collections::{BTreeMap, BTreeSet};

use crate::misread::{join_refusals, wrong, Asked, Misreading, Outcome};
use crate::model::answer::{fitting, Answer, Refusal};
use crate::model::contents::{Contents, Link};
use crate::model::join::{join, joinable, union, JOINT_OFFICES};
use crate::model::limits::edge_offset;
use crate::model::sheet::*;
use crate::trial::operation::JOIN;
use crate::trial::request::Request;

pub struct Joining {
    pub first: Vec<u32>,
    pub second: Vec<u32>,
    pub room: usize,
}

/// The marks of a joint row that the first sheet has, or the second, or both.
const FIRST: u32 = 1;
const SECOND: u32 = 2;
const BOTH: u32 = FIRST + SECOND;

/// The operation that they are about.
pub const JOINED: &[u32] = &[JOIN];

const WRONG: [Misreading<Joining>; 17] = [
    wrong("copies the first sheet", JOINED, copies_first),
    wrong("fuses only the first shared row", JOINED, fuses_one),
    wrong("marks an edge by its ends' offices", JOINED, edges_by_ends),
    wrong("marks a shared edge for the first alone", JOINED, shared_for_first),
    wrong("marks the offices the other way round", JOINED, turned),
    wrong("marks everything for both", JOINED, all_for_both),
    wrong("fuses the variants of a deed", JOINED, variants_fused),
    wrong("leaves out what only the second has", JOINED, without_second),
    wrong("fuses edges by their rows", JOINED, edges_by_rows),
    wrong("does not renumber the second's ends", JOINED, ends_kept),
    wrong("appends the second's edges", JOINED, edges_appended),
    wrong("counts one office", JOINED, one_office_counted),
    wrong("finds nothing shared", JOINED, nothing_shared),
    wrong("counts the smaller sheet as shared", JOINED, smaller_shared),
    wrong("counts the nodes at the same row as shared", JOINED, same_row_shared),
    wrong("counts equal edge rows as shared", JOINED, equal_rows_shared),
    wrong("gives the edges for the nodes", JOINED, edges_for_nodes),
];

pub fn all() -> impl Iterator<Item = &'static Misreading<Joining>> {
    WRONG.iter().chain(&join_refusals::WRONG)
}

impl Asked for Joining {
    fn of(request: &Request) -> Option<Joining> {
        let (first, second) = (words_of(&request.first), words_of(&request.second));
        Some(Joining { first, second, room: request.out_len })
    }
}

impl Joining {
    pub fn right(&self) -> Outcome {
        join(&self.first, &self.second, self.room)
    }

    /// As it should be, but for what is done with the answer.
    fn answered(&self, change: impl Fn(&mut Answer)) -> Outcome {
        let mut answer = self.right()?;
        change(&mut answer);
        Ok(answer)
    }

    /// Both inputs, once they may be joined.
    pub fn inputs(&self) -> Result<(Contents, Contents), Refusal> {
        joinable(&self.first, &self.second)?;
        Ok((Contents::of(&self.first), Contents::of(&self.second)))
    }

    /// The rest as it should be: counts of what was given.
    fn written(&self, joint: &Contents) -> Outcome {
        let right = self.right()?;
        let answer = fitting(joint.words(JOINT_OFFICES), self.room)?;
        Ok(Answer { value: joint.nodes.len() as u32, extras: right.extras, ..answer })
    }

    /// The joint with one thing changed.
    fn changed(&self, change: impl Fn(&mut Contents)) -> Outcome {
        let (one, other) = self.inputs()?;
        let mut joint = union(&one, &other);
        change(&mut joint);
        self.written(&joint)
    }

    fn edge_rows(&self) -> [Vec<Vec<u32>>; 2] {
        [&self.first, &self.second].map(|words| edge_rows(words).map(<[u32]>::to_vec).collect())
    }
}

fn copies_first(joining: &Joining) -> Outcome {
    let (one, _) = joining.inputs()?;
    joining.written(&one)
}

/// The first node that both have is fused; the second's other rows are put in
/// beside the first's.
fn fuses_one(joining: &Joining) -> Outcome {
    let (one, other) = joining.inputs()?;
    let mut rows = node_rows(&joining.first);
    let lone = other.nodes.keys().find(|identity| one.nodes.contains_key(identity));
    for [sort, number, variant, _] in node_rows(&joining.second) {
        let same = |row: &&mut Row| row[..3] == [sort, number, variant];
        match rows.iter_mut().find(same) {
            Some(row) if lone == Some(&(sort, number, variant)) => row[3] = BOTH,
            _ => rows.push([sort, number, variant, SECOND]),
        }
    }
    rows.sort();
    let right = joining.right()?;
    let joint = union(&one, &other).words(JOINT_OFFICES);
    let edges = edge_rows(&joint).map(|row| [row[0], row[1], row[2], row[3]]);
    let sheet = Sheet::new(JOINT_OFFICES, &rows, &edges.collect::<Vec<Row>>());
    let answer = fitting(sheet.words(), joining.room)?;
    let extras = [u32::from(lone.is_some()), right.extras[1]];
    Ok(Answer { value: rows.len() as u32, extras, ..answer })
}

fn edges_by_ends(joining: &Joining) -> Outcome {
    joining.changed(|joint| {
        let nodes = joint.nodes.clone();
        for (link, offices) in &mut joint.edges {
            *offices = nodes[&link.1] & nodes[&link.2];
        }
    })
}

fn shared_for_first(joining: &Joining) -> Outcome {
    joining.changed(|joint| {
        let shared = joint.edges.values_mut().filter(|offices| **offices == BOTH);
        shared.for_each(|offices| *offices = FIRST);
    })
}

fn turned(joining: &Joining) -> Outcome {
    joining.changed(|joint| {
        let marks = joint.nodes.values_mut().chain(joint.edges.values_mut());
        marks.for_each(|offices| *offices = [0, 2, 1, 3][*offices as usize]);
    })
}

fn all_for_both(joining: &Joining) -> Outcome {
    joining.changed(|joint| {
        joint
            .nodes
            .values_mut()
            .chain(joint.edges.values_mut())
            .for_each(|offices| *offices = BOTH);
    })
}

/// The first variant of a deed stands for all of them.
fn variants_fused(joining: &Joining) -> Outcome {
    joining.changed(|joint| {
        let mut fused = Contents::default();
        let mut names = BTreeMap::new();
        for (&identity, &offices) in &joint.nodes {
            let name = *names.entry((identity.0, identity.1)).or_insert(identity);
            *fused.nodes.entry(name).or_insert(0) |= offices;
        }
        for (&(kind, from, to), &offices) in &joint.edges {
            let (from, to) = (names[&(from.0, from.1)], names[&(to.0, to.1)]);
            *fused.edges.entry((kind, from, to)).or_insert(0) |= offices;
        }
        *joint = fused;
    })
}

fn without_second(joining: &Joining) -> Outcome {
    joining.changed(|joint| {
        joint.nodes.retain(|_, offices| *offices != SECOND);
        let Contents { nodes, edges } = joint;
        edges.retain(|link, _| nodes.contains_key(&link.1) && nodes.contains_key(&link.2));
    })
}

/// An edge is marked for both where both have its row's words.
fn edges_by_rows(joining: &Joining) -> Outcome {
    let (one, other) = joining.inputs()?;
    let mut joint = union(&one, &other);
    let rows = joining.edge_rows();
    let links = |contents: &Contents| contents.edges.keys().copied().collect::<Vec<Link>>();
    let both = |at: usize, links: &[Link]| -> BTreeSet<Link> {
        let zipped = rows[at].iter().zip(links);
        zipped.filter(|(row, _)| rows[1 - at].contains(row)).map(|(_, link)| *link).collect()
    };
    let first: BTreeSet<Link> = both(0, &links(&one));
    let second: BTreeSet<Link> = both(1, &links(&other));
    for (link, offices) in &mut joint.edges {
        let own = if *offices == BOTH { FIRST } else { *offices };
        *offices = if first.contains(link) || second.contains(link) { BOTH } else { own };
    }
    joining.written(&joint)
}

/// The words of the joint, with its edge rows exchanged for others.
fn with_edges(joining: &Joining, change: impl Fn(Vec<Row>) -> Vec<Row>) -> Outcome {
    joining.answered(|answer| {
        let words = &mut answer.written;
        let rows = edge_rows(words).map(|row| [row[0], row[1], row[2], row[3]]).collect();
        let rows = change(rows);
        words.truncate(edge_offset(node_count(words)));
        words.extend(rows.iter().flatten());
    })
}

/// The joint's edges of the second sheet come in the order they have there.
fn ends_kept(joining: &Joining) -> Outcome {
    joining.inputs()?;
    let [_, second] = joining.edge_rows();
    with_edges(joining, |mut rows| {
        let own = rows.iter_mut().filter(|row| row[3] != FIRST);
        for (row, was) in own.zip(&second) {
            row[..3].copy_from_slice(&was[..3]);
        }
        rows
    })
}

fn edges_appended(joining: &Joining) -> Outcome {
    with_edges(joining, |mut rows| {
        rows.sort_by_key(|row| row[3] == SECOND);
        rows
    })
}

fn one_office_counted(joining: &Joining) -> Outcome {
    joining.answered(|answer| answer.written[1] = 1)
}

fn nothing_shared(joining: &Joining) -> Outcome {
    joining.answered(|answer| answer.extras = [0, 0])
}

fn smaller_shared(joining: &Joining) -> Outcome {
    let (first, second) = (&joining.first, &joining.second);
    joining.answered(|answer| {
        answer.extras =
            [node_count, edge_count].map(|count| count(first).min(count(second)) as u32);
    })
}

fn same_row_shared(joining: &Joining) -> Outcome {
    joining.answered(|answer| {
        let rows = node_rows(&joining.first).into_iter().zip(node_rows(&joining.second));
        answer.extras[0] = rows.filter(|(one, other)| one == other).count() as u32;
    })
}

fn equal_rows_shared(joining: &Joining) -> Outcome {
    joining.answered(|answer| {
        let [first, second] = joining.edge_rows();
        answer.extras[1] = first.iter().filter(|row| second.contains(row)).count() as u32;
    })
}

fn edges_for_nodes(joining: &Joining) -> Outcome {
    joining.answered(|answer| answer.value = edge_count(&answer.written) as u32)
}
