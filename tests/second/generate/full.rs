//! Sheets with as many nodes and edges as there may be, for questions 5 to 10. How many persons,
//! deeds and folios there are is chosen for each question: a program that looks
//! at every triple by itself must still come to an end under an emulator.

use crate::generate::draft::Draft;
use crate::generate::make::any_office_count;
use crate::generate::marks::part_of;
use crate::generate::random::Random;
use crate::model::limits::*;
use crate::model::marks::all_marks;
use crate::model::office::{Deed, Side};
use crate::model::sheet::*;

#[derive(Clone, Copy, Debug, PartialEq)]
pub enum Shape {
    Chain,
    Ring,
    Star,
    Dense,
}

pub const SHAPES: [Shape; 4] = [Shape::Chain, Shape::Ring, Shape::Star, Shape::Dense];

/// How many there are of each; the rest are categories.
#[derive(Clone, Copy)]
pub struct Crew {
    pub persons: u32,
    pub deeds: u32,
    pub folios: u32,
}

/// The identities a sheet has, and the edges drawn so far.
pub struct Plot {
    pub draft: Draft,
    /// Of every node.
    pub marks: u32,
    pub line: Vec<u32>,
    pub persons: Vec<u32>,
    pub deeds: Vec<Deed>,
    pub folios: Vec<u32>,
}

impl Plot {
    /// Known whether or not an edge comes to them.
    pub fn know_all(&mut self) {
        let (draft, marks) = (&mut self.draft, self.marks);
        self.persons.iter().for_each(|&number| draft.node((PERSON, number, 0), marks));
        self.line.iter().for_each(|&number| draft.node((CATEGORY, number, 0), marks));
        self.deeds.iter().for_each(|&(number, variant)| draft.node((DEED, number, variant), marks));
        self.folios.iter().for_each(|&number| draft.node((FOLIO, number, 0), marks));
    }
}

pub fn full(random: &mut Random, shape: Shape, crew: Crew) -> Sheet {
    let office_count = any_office_count(random);
    let mut plot = start(random, crew, office_count);
    match shape {
        Shape::Chain => chain(&mut plot),
        Shape::Ring => ring(&mut plot),
        Shape::Star => star(random, &mut plot),
        Shape::Dense => dense(random, &mut plot),
    }
    ends(random, &mut plot);
    while plot.draft.edge_count() < MOST_EDGES {
        fill(random, &mut plot, shape);
    }
    plot.draft.sheet(office_count)
}

fn start(random: &mut Random, crew: Crew, office_count: u32) -> Plot {
    let marks = all_marks(office_count);
    let categories = MOST_NODES as u32 - crew.persons - crew.deeds - crew.folios;
    let base = random.pick(&[1, 5_000, u32::MAX - MOST_NODES as u32]);
    let numbers = |count: u32| (base..base + count).collect::<Vec<u32>>();
    let mut line = numbers(categories);
    if random.one_in(2) {
        random.shuffle(&mut line);
    }
    // Two variants of each deed number, so that a deed is asked for by both.
    let deeds = (0..crew.deeds).map(|at| (base + at / 2, at % 2)).collect();
    let mut plot = Plot {
        draft: Draft::default(),
        marks,
        line,
        persons: numbers(crew.persons),
        deeds,
        folios: numbers(crew.folios),
    };
    plot.know_all();
    plot
}

fn chain(plot: &mut Plot) {
    for pair in plot.line.windows(2) {
        plot.draft.step(Side::Grant, pair[0], pair[1], plot.marks);
    }
}

fn ring(plot: &mut Plot) {
    chain(plot);
    plot.draft.step(Side::Grant, plot.line[plot.line.len() - 1], plot.line[0], plot.marks);
}

/// Half of the categories are contained in the hub, and it in the others.
fn star(random: &mut Random, plot: &mut Plot) {
    for &spoke in &plot.line[1..] {
        let side = random.pick(&[Side::Grant, Side::Ban]);
        plot.draft.step(side, plot.line[0], spoke, plot.marks);
    }
}

fn dense(random: &mut Random, plot: &mut Plot) {
    while plot.draft.edge_count() < 1_200 {
        let crowd = &plot.line[..40];
        let (from, to) = (random.pick(crowd), random.pick(crowd));
        plot.draft.step(Side::Grant, from, to, plot.marks);
    }
}

/// The first person has a grant from end to end of the line, and the last one a
/// ban. The first deed on the first folio is granted nowhere but at the end, so
/// that no edge that fills the table leads there sooner.
fn ends(random: &mut Random, plot: &mut Plot) {
    let (first, last) = (plot.line[0], plot.line[plot.line.len() - 1]);
    plot.draft.member(plot.persons[0], first, plot.marks);
    plot.draft.member(plot.persons[plot.persons.len() - 1], last, plot.marks);
    plot.draft.right(Side::Grant, last, plot.deeds[0], plot.marks);
    plot.draft.right(Side::Ban, first, plot.deeds[1], plot.marks);
    for deed in [plot.deeds[0], plot.deeds[1]] {
        plot.draft.applies(deed, plot.folios[plot.folios.len() - 1], plot.marks);
    }
    plot.draft.applies(plot.deeds[0], plot.folios[0], plot.marks);
    let deed = random.pick(&plot.deeds);
    plot.draft.applies(deed, random.pick(&plot.folios[1..]), plot.marks);
}

/// One edge more. Rights stand at every place of the line, and a chain keeps
/// nearly its length: a short step leaves out one category and is rare. Where
/// there are many deeds and folios, most of the edges lie between those.
fn fill(random: &mut Random, plot: &mut Plot, shape: Shape) {
    let offices = part_of(random, plot.marks, 1);
    let at = random.below(plot.line.len() - 2);
    let category = plot.line[at];
    let deed = random.pick(&plot.deeds[1..]);
    let wide = plot.deeds.len() * plot.folios.len() > 1_000;
    let long = matches!(shape, Shape::Chain | Shape::Ring);
    match random.below(16) {
        0 if long && random.one_in(8) => {
            plot.draft.step(Side::Grant, category, plot.line[at + 2], offices);
        }
        0 => plot.draft.applies(deed, random.pick(&plot.folios[1..]), offices),
        1..=12 if wide => plot.draft.applies(deed, random.pick(&plot.folios[1..]), offices),
        1..=4 | 13 => plot.draft.member(random.pick(&plot.persons[1..]), category, offices),
        _ => {
            let side = random.pick(&[Side::Grant, Side::Ban]);
            plot.draft.right(side, category, deed, offices);
        }
    }
}
