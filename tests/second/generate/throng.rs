//! Small crowded sheets for questions 5 to 10: lists that are rarely empty,
//! triples that are Both, pairs of deeds, and redundant edges of every kind, in
//! rings and in chains.

use crate::generate::marks::part_of;
use crate::generate::random::Random;
use crate::generate::scene::{
    any_side, both_sides, halves, loose, variants, Scene, Shape, OFFICE_COUNTS,
};
use crate::model::limits::MOST_OFFICES;
use crate::model::marks::{all_marks, mark_of};
use crate::model::office::{Deed, Side};
use crate::model::sheet::*;

const SHAPES: [Shape; 10] =
    [thicket, thicket, ladder, ladder, ring, crossed, two_deeds, variants, halves, both_sides];

pub fn small(random: &mut Random) -> Sheet {
    let office_count = random.pick(&OFFICE_COUNTS);
    let mut scene = Scene::new(random, office_count);
    for _ in 0..random.pick(&[1, 1, 1, 2, 2, 3]) {
        random.pick(&SHAPES)(random, &mut scene);
    }
    if random.one_in(3) {
        loose(random, &mut scene);
    }
    if office_count > 1 && random.one_in(3) {
        scene.draft.known_to(part_of(random, all_marks(office_count), 0));
    }
    if office_count > 1 && random.one_in(3) {
        own_nodes(random, &mut scene);
    }
    scene.draft.sheet(office_count)
}

/// For each office a category, a deed and a folio that no other has.
fn own_nodes(random: &mut Random, scene: &mut Scene) {
    for office in 1..=MOST_OFFICES {
        for sort in [CATEGORY, DEED, FOLIO] {
            let number = random.odd_word().max(1);
            scene.draft.node((sort, number, 0), mark_of(office));
        }
    }
}

fn some_deeds(random: &mut Random, scene: &Scene, most: usize) -> Vec<Deed> {
    let size = random.between(1, most);
    (0..size).map(|_| scene.deed(random)).collect()
}

/// Every edge that could be is there by a chance of its own.
fn thicket(random: &mut Random, scene: &mut Scene) {
    let some = scene.some_categories(random, 1, 5);
    let deeds = some_deeds(random, scene, 5);
    let (steps, rights) = (random.between(2, 5), random.between(2, 6));
    for &category in &some {
        for &other in &some {
            if random.one_in(steps) {
                scene.step(random, Side::Grant, category, other);
            }
        }
        for &deed in &deeds {
            for side in [Side::Grant, Side::Ban] {
                if random.one_in(rights) {
                    scene.right(random, side, category, deed);
                }
            }
        }
        if random.one_in(2) {
            scene.enter(random, category);
        }
    }
    deeds.iter().for_each(|&deed| scene.apply(random, deed));
}

/// Members and rights of one deed at several of these categories: in a line or
/// a ring the most of them are redundant.
fn furnish(random: &mut Random, scene: &mut Scene, some: &[u32]) {
    let person = random.pick(&scene.cast.persons);
    let deeds = some_deeds(random, scene, 2);
    for _ in 0..random.between(1, 4) {
        let (category, offices) = (random.pick(some), scene.mark(random));
        scene.draft.member(person, category, offices);
        let (category, side) = (random.pick(some), any_side(random));
        let deed = random.pick(&deeds);
        scene.right(random, side, category, deed);
    }
    deeds.iter().for_each(|&deed| scene.apply(random, deed));
}

/// A chain with steps that leave out one rung or more.
fn ladder(random: &mut Random, scene: &mut Scene) {
    let line = scene.some_categories(random, 2, 7);
    scene.line(random, Side::Grant, &line);
    for _ in 0..random.below(4) {
        let low = random.below(line.len() - 1);
        let high = random.between(low + 1, line.len() - 1);
        scene.step(random, Side::Grant, line[low], line[high]);
    }
    furnish(random, scene, &line);
}

/// With a chord or without, and with a tail that the ring is not on.
fn ring(random: &mut Random, scene: &mut Scene) {
    let mut line = scene.some_categories(random, 2, 6);
    let tail = if line.len() > 2 && random.one_in(2) { line.pop() } else { None };
    furnish(random, scene, &line);
    if let Some(tail) = tail {
        let (side, at) = (any_side(random), random.pick(&line));
        scene.step(random, side, at, tail);
    }
    if random.one_in(2) {
        let (from, to) = (random.pick(&line), random.pick(&line));
        scene.step(random, Side::Grant, from, to);
    }
    line.push(line[0]);
    scene.line(random, Side::Grant, &line);
}

/// Every person is Both somewhere, each on a deed and a folio of their own: the
/// order of comparing decides which triple is the least.
fn crossed(random: &mut Random, scene: &mut Scene) {
    let some = scene.some_categories(random, 3, 3);
    for (person, category) in scene.cast.persons.clone().into_iter().zip(some) {
        let offices = scene.mark(random);
        scene.draft.member(person, category, offices);
        for _ in 0..random.between(1, 2) {
            let deed = scene.deed(random);
            scene.right(random, Side::Grant, category, deed);
            scene.right(random, Side::Ban, category, deed);
            scene.apply(random, deed);
        }
    }
}

/// Several persons with grants for both deeds, on folios that are now and then
/// the same.
fn two_deeds(random: &mut Random, scene: &mut Scene) {
    let some = scene.some_categories(random, 2, 4);
    scene.line(random, Side::Grant, &some[1..]);
    some.iter().for_each(|&category| scene.enter(random, category));
    for number in scene.cast.deeds.clone() {
        for _ in 0..random.between(1, 3) {
            let deed = (number, random.pick(&scene.cast.variants));
            let category = random.pick(&some);
            scene.right(random, Side::Grant, category, deed);
            scene.apply(random, deed);
            scene.apply(random, deed);
        }
    }
}
