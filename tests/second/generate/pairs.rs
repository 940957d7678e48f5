//! Pairs of sheets that have something in common, as outlines: what stands in
//! one of them, in the other or in both is drawn by identities.

use crate::generate::outline::Outline;
use crate::generate::random::Random;
use crate::generate::{damage, make, scene, scramble, throng};
use crate::model::contents::Identity;
use crate::model::sheet::*;

pub type Pair = (Outline, Outline);

type Relation = fn(&mut Random) -> Pair;

/// How the two of a pair are related, and their shares out of 100.
const RELATIONS: [(&str, usize, Relation); 9] = [
    ("the same", 10, same),
    ("the second within the first", 10, within),
    ("the first within the second", 10, around),
    ("overlapping", 26, overlapping),
    ("interleaved", 12, interleaved),
    ("unrelated", 8, unrelated),
    ("neighbours", 12, neighbours),
    ("the same nodes, other edges", 8, other_edges),
    ("one of them empty", 4, empty),
];

pub fn any(random: &mut Random) -> (&'static str, Pair) {
    let mut chance = random.below(100);
    for (name, share, relation) in RELATIONS {
        if chance < share {
            return (name, relation(random));
        }
        chance -= share;
    }
    ("the same", same(random))
}

pub fn whole(random: &mut Random) -> Outline {
    let sheet = match random.below(40) {
        0 => make::any(random),
        1..=16 => make::small(random),
        17..=28 => scene::small(random),
        _ => throng::small(random),
    };
    Outline::of(&sheet)
}

/// A part of its nodes and of what is left between them.
fn part(random: &mut Random, outline: &Outline) -> Outline {
    let few = random.between(2, 6);
    let nodes = outline.keep(|_| !random.one_in(few));
    nodes.keep_links(|_| !random.one_in(few))
}

fn same(random: &mut Random) -> Pair {
    let outline = whole(random);
    (outline.clone(), outline)
}

fn within(random: &mut Random) -> Pair {
    let outline = whole(random);
    let inner = part(random, &outline);
    (outline, inner)
}

fn around(random: &mut Random) -> Pair {
    let (outer, inner) = within(random);
    (inner, outer)
}

fn overlapping(random: &mut Random) -> Pair {
    let outline = whole(random);
    (part(random, &outline), part(random, &outline))
}

/// In turns of one node or a few: nothing is shared, and neither comes first.
fn interleaved(random: &mut Random) -> Pair {
    let outline = whole(random);
    let turn = random.pick(&[1, 1, 2, 3]);
    let half = |which: usize| {
        let mut at = 0;
        outline.keep(|_| {
            at += 1;
            at / turn % 2 == which
        })
    };
    let pair = (half(0), half(1));
    if random.one_in(2) {
        (pair.1, pair.0)
    } else {
        pair
    }
}

fn unrelated(random: &mut Random) -> Pair {
    (whole(random), whole(random))
}

/// The second is the first with its numbers, or its deeds' variants, one higher.
fn neighbours(random: &mut Random) -> Pair {
    let outline = whole(random);
    let sort = random.pick(&[0, PERSON, CATEGORY, DEED, FOLIO]);
    let by_variant = random.one_in(2);
    let higher = |(own, number, variant): Identity| match own {
        DEED if by_variant => (own, number, variant.wrapping_add(1)),
        _ if by_variant || (sort != 0 && sort != own) => (own, number, variant),
        _ => (own, number.checked_add(1).unwrap_or(1), variant),
    };
    let second = outline.renamed(higher);
    (outline, second)
}

/// Each link is in one of them, or in both.
fn other_edges(random: &mut Random) -> Pair {
    let outline = whole(random);
    let first = outline.keep_links(|_| random.one_in(2));
    let second = outline.keep_links(|link| !first.links.contains(link) || random.one_in(3));
    (first, second)
}

fn empty(random: &mut Random) -> Pair {
    let outline = whole(random);
    match random.below(3) {
        0 => (outline, Outline::default()),
        1 => (Outline::default(), outline),
        _ => (Outline::default(), Outline::default()),
    }
}

/// Damages the first sheet, the second or both, or spoils one of them, where the
/// manner says so.
pub fn damage(random: &mut Random, manner: &str, sheets: &mut [Vec<u32>; 2]) {
    let both = manner.ends_with("damaged both");
    if both || manner.ends_with("damaged first") {
        sheets[0] = words_of(&damage::any(random));
    }
    if both || manner.ends_with("damaged second") {
        sheets[1] = words_of(&damage::any(random));
    }
    if manner.ends_with("spoiled") {
        let one = &mut sheets[random.below(2)];
        *one = spoiled(random, one);
    }
}

/// Some of these are still sheets.
pub fn spoiled(random: &mut Random, words: &[u32]) -> Vec<u32> {
    let mut words = words.to_vec();
    let at = random.below(words.len());
    match random.below(5) {
        0 => words = words_of(&scramble::words_after_header(random)),
        1 => words[at] ^= 1 << random.below(32),
        2 => words[at] = random.below(9) as u32,
        3 => words[at] = random.pick(&words),
        _ => words.truncate(at),
    }
    words
}
