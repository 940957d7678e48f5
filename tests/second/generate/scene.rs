//! Small sheets on which the questions have something to find: each shape lays
//! paths on purpose, and loose rows come in between.

use crate::generate::cast::{cast, Cast};
use crate::generate::draft::Draft;
use crate::generate::marks::{mostly_all, part_of};
use crate::generate::random::Random;
use crate::model::limits::MOST_OFFICES;
use crate::model::marks::{all_marks, mark_of};
use crate::model::office::{Deed, Side};
use crate::model::sheet::*;

/// How the rows of a scene are marked.
#[derive(Clone, Copy)]
pub enum Marks {
    Always(u32),
    /// Any part of these.
    Mixed(u32),
    MostlyAll(u32),
}

pub struct Scene {
    pub draft: Draft,
    pub cast: Cast,
    marks: Marks,
}

/// How many offices a scene has: the most in two cases of three.
pub const OFFICE_COUNTS: [u32; 3] = [1, MOST_OFFICES, MOST_OFFICES];

pub type Shape = fn(&mut Random, &mut Scene);

const SHAPES: [Shape; 9] = [chain, ring, star, dense, diamond, variants, halves, both_sides, loose];

pub fn small(random: &mut Random) -> Sheet {
    let office_count = random.pick(&OFFICE_COUNTS);
    let mut scene = Scene::new(random, office_count);
    for _ in 0..random.pick(&[1, 1, 2, 3]) {
        random.pick(&SHAPES)(random, &mut scene);
    }
    if random.one_in(2) {
        loose(random, &mut scene);
    }
    if office_count > 1 && random.one_in(4) {
        scene.draft.known_to(part_of(random, all_marks(office_count), 0));
    }
    scene.draft.sheet(office_count)
}

/// A ring of categories with a path into it and out of it, for lists that run
/// round and round.
pub fn small_ring(random: &mut Random) -> Sheet {
    let mut scene = Scene { draft: Draft::default(), cast: cast(random), marks: Marks::Always(1) };
    ring(random, &mut scene);
    scene.draft.sheet(1)
}

fn marks(random: &mut Random, office_count: u32) -> Marks {
    let all = all_marks(office_count);
    match (office_count, random.below(4)) {
        (1, _) => Marks::Always(all),
        (_, 0) => Marks::Always(part_of(random, all, 0)),
        (_, 1) => Marks::Mixed(all),
        _ => Marks::MostlyAll(all),
    }
}

pub fn any_side(random: &mut Random) -> Side {
    random.pick(&[Side::Grant, Side::Ban])
}

impl Scene {
    pub fn new(random: &mut Random, office_count: u32) -> Scene {
        let marks = marks(random, office_count);
        Scene { draft: Draft::default(), cast: cast(random), marks }
    }

    pub fn mark(&self, random: &mut Random) -> u32 {
        match self.marks {
            Marks::Always(offices) => offices,
            Marks::Mixed(all) => part_of(random, all, 0),
            Marks::MostlyAll(all) => mostly_all(random, all, 5),
        }
    }

    pub fn deed(&self, random: &mut Random) -> Deed {
        (random.pick(&self.cast.deeds), random.pick(&self.cast.variants))
    }

    pub fn category(&self, random: &mut Random) -> u32 {
        random.pick(&self.cast.categories)
    }

    pub fn some_categories(&self, random: &mut Random, least: usize, most: usize) -> Vec<u32> {
        let mut some = self.cast.categories.clone();
        random.shuffle(&mut some);
        some.truncate(random.between(least, most));
        some
    }

    pub fn enter(&mut self, random: &mut Random, category: u32) {
        let (person, offices) = (random.pick(&self.cast.persons), self.mark(random));
        self.draft.member(person, category, offices);
    }

    pub fn step(&mut self, random: &mut Random, side: Side, from: u32, to: u32) {
        let offices = self.mark(random);
        self.draft.step(side, from, to, offices);
    }

    pub fn right(&mut self, random: &mut Random, side: Side, category: u32, deed: Deed) {
        let offices = self.mark(random);
        self.draft.right(side, category, deed, offices);
    }

    pub fn apply(&mut self, random: &mut Random, deed: Deed) {
        let (folio, offices) = (random.pick(&self.cast.folios), self.mark(random));
        self.draft.applies(deed, folio, offices);
    }

    pub fn leave(&mut self, random: &mut Random, side: Side, category: u32) {
        let deed = self.deed(random);
        self.right(random, side, category, deed);
        self.apply(random, deed);
    }

    pub fn line(&mut self, random: &mut Random, side: Side, line: &[u32]) {
        for pair in line.windows(2) {
            self.step(random, side, pair[0], pair[1]);
        }
    }
}

fn chain(random: &mut Random, scene: &mut Scene) {
    let side = any_side(random);
    let line = scene.some_categories(random, 1, 10);
    scene.enter(random, line[0]);
    scene.line(random, side, &line);
    scene.leave(random, side, line[line.len() - 1]);
}

/// Entered and left anywhere, and sometimes with a chord.
fn ring(random: &mut Random, scene: &mut Scene) {
    let side = any_side(random);
    let mut line = scene.some_categories(random, 2, 9);
    scene.enter(random, line[0]);
    let out = random.pick(&line);
    scene.leave(random, side, out);
    line.push(line[0]);
    scene.line(random, side, &line);
    if random.one_in(2) {
        let (from, to) = (random.pick(&line), random.pick(&line));
        scene.step(random, side, from, to);
    }
}

fn star(random: &mut Random, scene: &mut Scene) {
    let side = any_side(random);
    let spokes = scene.some_categories(random, 3, 8);
    let hub = spokes[0];
    let into = random.pick(&spokes);
    scene.enter(random, into);
    let deed = scene.deed(random);
    scene.apply(random, deed);
    for &spoke in &spokes[1..] {
        if random.one_in(2) {
            scene.step(random, side, hub, spoke);
        } else {
            scene.step(random, side, spoke, hub);
        }
        if random.one_in(2) {
            scene.right(random, side, spoke, deed);
        }
    }
}

fn dense(random: &mut Random, scene: &mut Scene) {
    let some = scene.some_categories(random, 3, 6);
    for &from in &some {
        for &to in &some {
            if random.one_in(2) {
                scene.step(random, Side::Grant, from, to);
            }
        }
    }
    for _ in 0..random.between(1, 2) {
        let (into, out) = (random.pick(&some), random.pick(&some));
        scene.enter(random, into);
        let side = any_side(random);
        scene.leave(random, side, out);
    }
}

/// Every category of a layer leads to every one of the next: all ways are
/// equally short, and the dictionary alone decides.
fn diamond(random: &mut Random, scene: &mut Scene) {
    let side = any_side(random);
    let some = scene.some_categories(random, 4, 12);
    let layers: Vec<&[u32]> = some.chunks(random.between(2, 4)).collect();
    let person = random.pick(&scene.cast.persons);
    for &first in layers[0] {
        let offices = scene.mark(random);
        scene.draft.member(person, first, offices);
    }
    for pair in layers.windows(2) {
        for &from in pair[0] {
            for &to in pair[1] {
                scene.step(random, side, from, to);
            }
        }
    }
    many_variants(random, scene, side, layers[layers.len() - 1]);
}

/// Several variants of one deed on one folio.
fn many_variants(random: &mut Random, scene: &mut Scene, side: Side, categories: &[u32]) {
    let number = random.pick(&scene.cast.deeds);
    let folio = random.pick(&scene.cast.folios);
    for variant in scene.cast.variants.clone() {
        let offices = scene.mark(random);
        scene.draft.applies((number, variant), folio, offices);
        for &category in categories {
            if !random.one_in(3) {
                scene.right(random, side, category, (number, variant));
            }
        }
    }
}

/// One deed number whose variants apply to different folios.
pub fn variants(random: &mut Random, scene: &mut Scene) {
    let number = random.pick(&scene.cast.deeds);
    let some = scene.some_categories(random, 2, 4);
    let into = random.pick(&some);
    scene.enter(random, into);
    let side = any_side(random);
    scene.line(random, side, &some);
    for variant in scene.cast.variants.clone() {
        let deed = (number, variant);
        let (out, side) = (random.pick(&some), any_side(random));
        scene.right(random, side, out, deed);
        scene.apply(random, deed);
    }
}

/// A path whose first part one office has, and whose second part the other.
/// In a scene of one office it is just a path.
pub fn halves(random: &mut Random, scene: &mut Scene) {
    let usual = scene.marks;
    let (first, second) = match usual {
        Marks::Always(1) => (1, 1),
        _ => random.pick(&[(mark_of(1), mark_of(2)), (mark_of(2), mark_of(1))]),
    };
    let side = any_side(random);
    let line = scene.some_categories(random, 2, 8);
    let cut = random.between(0, line.len() + 1);
    let part = |at: usize| Marks::Always(if at < cut { first } else { second });
    scene.marks = part(0);
    scene.enter(random, line[0]);
    for (at, pair) in line.windows(2).enumerate() {
        scene.marks = part(at + 1);
        scene.step(random, side, pair[0], pair[1]);
    }
    scene.marks = part(line.len());
    let deed = scene.deed(random);
    scene.right(random, side, line[line.len() - 1], deed);
    scene.marks = part(line.len() + 1);
    scene.apply(random, deed);
    scene.marks = usual;
    // Otherwise an end that one office does not know would be refused before
    // the path is looked for.
    if first != second && random.one_in(2) {
        scene.draft.known_to(first | second);
    }
}

/// A grant path up and a ban path down for the same triple, by the same
/// variant or by two.
pub fn both_sides(random: &mut Random, scene: &mut Scene) {
    let line = scene.some_categories(random, 3, 7);
    let middle = random.below(line.len());
    scene.line(random, Side::Grant, &line);
    scene.enter(random, line[middle]);
    let (number, folio) = (random.pick(&scene.cast.deeds), random.pick(&scene.cast.folios));
    let ends = [(Side::Grant, line[line.len() - 1]), (Side::Ban, line[0])];
    for (side, end) in ends {
        let deed = (number, random.pick(&scene.cast.variants));
        scene.right(random, side, end, deed);
        let offices = scene.mark(random);
        scene.draft.applies(deed, folio, offices);
    }
}

pub fn loose(random: &mut Random, scene: &mut Scene) {
    for _ in 0..random.between(1, 8) {
        let (one, other) = (scene.category(random), scene.category(random));
        match random.below(5) {
            0 => scene.enter(random, one),
            1 => scene.step(random, Side::Grant, one, other),
            2 => {
                let (side, deed) = (any_side(random), scene.deed(random));
                scene.right(random, side, one, deed);
            }
            3 => {
                let deed = scene.deed(random);
                scene.apply(random, deed);
            }
            _ => lone_node(random, scene),
        }
    }
}

/// Known, but without an edge.
pub fn lone_node(random: &mut Random, scene: &mut Scene) {
    let deed = scene.deed(random);
    let identity = match random.below(4) {
        0 => (PERSON, random.pick(&scene.cast.persons), 0),
        1 => (CATEGORY, scene.category(random), 0),
        2 => (DEED, deed.0, deed.1),
        _ => (FOLIO, random.pick(&scene.cast.folios), 0),
    };
    let offices = scene.mark(random);
    scene.draft.node(identity, offices);
}
