//! The sheets of the benchmarks: as many nodes and edges as there may be, and no
//! chance in them. For each kind of question there is a mix that leaves its search
//! nothing to stop at.

use crate::generate::draft::Draft;
use crate::generate::full::{Crew, Plot, Shape};
use crate::model::limits::{MOST_EDGES, MOST_NODES};
use crate::model::marks::all_marks;
use crate::model::office::{Deed, Side};
use crate::model::sheet::*;

/// What a sheet is made hard for.
#[derive(Clone, Copy, PartialEq)]
pub enum Work {
    /// The shortest path of the first person is as long as the shape allows, and
    /// the other persons' members all lie on the way.
    LongPath,
    /// Each person by itself reaches every category and every deed.
    ManyPersons,
    /// Each person reaches each variant of one deed, and no triple is Both.
    EveryTriple,
    /// From nearly every edge nearly every other is reached.
    EveryEdge,
}

/// How many there are of each; the rest are categories. Where every category is
/// tied to every other, few of them take up the edges.
fn crew(work: Work, shape: Shape) -> Crew {
    let (persons, deeds, folios) = match (work, shape) {
        (Work::LongPath, Shape::Dense) => (460, 1, 1),
        (Work::LongPath, _) => (5, 1, 1),
        (Work::ManyPersons, Shape::Dense) => (452, 7, 3),
        (Work::ManyPersons, _) => (250, 7, 3),
        (Work::EveryTriple, Shape::Dense) => (228, 228, 20),
        (Work::EveryTriple, _) => (162, 162, 20),
        (Work::EveryEdge, Shape::Dense) => (153, 152, 152),
        (Work::EveryEdge, _) => (1, 1, 1),
    };
    Crew { persons, deeds, folios }
}

/// Every number counts from 1; so the last category's is how many there are.
pub fn last_category(work: Work, shape: Shape) -> u32 {
    let Crew { persons, deeds, folios } = crew(work, shape);
    MOST_NODES as u32 - persons - deeds - folios
}

pub fn sheet(work: Work, shape: Shape, office_count: u32) -> Sheet {
    let mut plot = plot(work, shape, office_count);
    plot.know_all();
    contain(&mut plot, shape);
    match work {
        Work::LongPath => long_path(&mut plot),
        Work::ManyPersons => many_persons(&mut plot),
        Work::EveryTriple => every_triple(&mut plot),
        Work::EveryEdge => every_edge(&mut plot, shape),
    }
    plot.draft.sheet(office_count)
}

fn plot(work: Work, shape: Shape, office_count: u32) -> Plot {
    let Crew { persons, deeds, folios } = crew(work, shape);
    Plot {
        draft: Draft::default(),
        marks: all_marks(office_count),
        line: (1..=last_category(work, shape)).collect(),
        persons: (1..=persons).collect(),
        deeds: (0..deeds).map(|at| deed(work, at)).collect(),
        folios: (1..=folios).collect(),
    }
}

/// Question 9 names two deeds, 1 and 2. Question 8 takes the variants of a number
/// together, so a number that has all of them costs it the most.
fn deed(work: Work, at: u32) -> Deed {
    match work {
        Work::ManyPersons if at == 6 => (2, 0),
        Work::EveryEdge => (at + 1, 0),
        _ => (1, at),
    }
}

impl Plot {
    fn first(&self) -> u32 {
        self.line[0]
    }

    fn last(&self) -> u32 {
        self.line[self.line.len() - 1]
    }

    fn member(&mut self, person: u32, category: u32) {
        self.draft.member(person, category, self.marks);
    }

    fn step(&mut self, low: u32, high: u32) {
        self.draft.step(Side::Grant, low, high, self.marks);
    }

    fn right(&mut self, side: Side, category: u32, deed: Deed) {
        self.draft.right(side, category, deed, self.marks);
    }

    fn applies(&mut self, deed: Deed, folio: u32) {
        self.draft.applies(deed, folio, self.marks);
    }

    /// As many of these edges as the table still has room for.
    fn fill<T>(&mut self, edges: impl IntoIterator<Item = T>, add: impl Fn(&mut Plot, T)) {
        for edge in edges {
            if self.draft.edge_count() == MOST_EDGES {
                return;
            }
            add(self, edge);
        }
    }
}

/// The containments that make the shape.
fn contain(plot: &mut Plot, shape: Shape) {
    let line = plot.line.clone();
    if shape != Shape::Star {
        line.windows(2).for_each(|pair| plot.step(pair[0], pair[1]));
    }
    match shape {
        Shape::Chain => {}
        Shape::Ring => plot.step(plot.last(), plot.first()),
        Shape::Star => star(plot, &line),
        Shape::Dense => dense(plot, &line),
    }
}

/// Every category is equal to the hub. No path begins or ends there.
fn star(plot: &mut Plot, line: &[u32]) {
    let hub = line[line.len() / 2];
    for &spoke in line {
        plot.step(spoke, hub);
        plot.step(hub, spoke);
    }
}

/// Every category is contained in all that stand before it: those steps lead back
/// and never shorten the way from the first to the last.
fn dense(plot: &mut Plot, line: &[u32]) {
    for (at, &category) in line.iter().enumerate() {
        line[..at].iter().for_each(|&before| plot.step(category, before));
    }
}

/// The first person's grant leads from end to end of the line. The ban at the
/// start makes the bans' walk go over the whole line too.
fn long_path(plot: &mut Plot) {
    let (deed, folio) = (plot.deeds[0], plot.folios[0]);
    plot.member(plot.persons[0], plot.first());
    plot.right(Side::Grant, plot.last(), deed);
    plot.right(Side::Ban, plot.first(), deed);
    plot.applies(deed, folio);
    let pairs = pairs(&plot.line, &plot.persons[1..]);
    plot.fill(pairs, |plot, (category, person)| plot.member(person, category));
}

/// Deed 1 and deed 2 have no folio in common, and the last folio has no deed.
fn many_persons(plot: &mut Plot) {
    for person in plot.persons.clone() {
        plot.member(person, plot.first());
    }
    for deed in plot.deeds.clone() {
        plot.right(Side::Grant, plot.last(), deed);
        plot.applies(deed, deed.0);
    }
    let pairs = pairs(&plot.line, &plot.deeds);
    plot.fill(pairs, |plot, (category, deed)| plot.right(Side::Grant, category, deed));
}

/// Even variants are granted and odd ones banned, and the two kinds have no folio in
/// common. A search that goes by the deed's number gets no answer from one variant
/// that would spare it the next.
fn every_triple(plot: &mut Plot) {
    for person in plot.persons.clone() {
        plot.member(person, plot.first());
    }
    for deed in plot.deeds.clone() {
        match deed.1 % 2 {
            0 => plot.right(Side::Grant, plot.last(), deed),
            _ => plot.right(Side::Ban, plot.first(), deed),
        }
    }
    let mut pairs = pairs(&plot.folios, &plot.deeds);
    pairs.retain(|(folio, deed)| folio % 2 == deed.1 % 2);
    plot.fill(pairs, |plot, (folio, deed)| plot.applies(deed, folio));
}

/// The table is filled with edges that are redundant: containments that leave out
/// some of the line, or else members and rights that other edges make up for.
fn every_edge(plot: &mut Plot, shape: Shape) {
    for person in plot.persons.clone() {
        plot.member(person, plot.first());
    }
    for (deed, folio) in plot.deeds.clone().into_iter().zip(plot.folios.clone()) {
        plot.right(Side::Grant, plot.last(), deed);
        plot.applies(deed, folio);
    }
    let line = plot.line.clone();
    if matches!(shape, Shape::Chain | Shape::Ring) {
        let short =
            |left_out: usize| line.iter().copied().zip(line[left_out + 1..].iter().copied());
        plot.fill((1..5).flat_map(short), |plot, (low, high)| plot.step(low, high));
    }
    let (person, deed) = (plot.persons[0], plot.deeds[0]);
    plot.fill(line.clone(), |plot, category| plot.member(person, category));
    plot.fill(line.clone(), |plot, category| plot.right(Side::Grant, category, deed));
    plot.fill(line, |plot, category| plot.right(Side::Ban, category, deed));
}

/// Each of the one with each of the other.
fn pairs<A: Copy, B: Copy>(one: &[A], other: &[B]) -> Vec<(A, B)> {
    one.iter().flat_map(|&a| other.iter().map(move |&b| (a, b))).collect()
}
