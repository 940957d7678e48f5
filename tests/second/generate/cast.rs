//! Who and what stands in a small sheet: numbers crowded together, at the ends
//! of the range, or shared by all types.

use std::collections::BTreeSet;

use crate::generate::random::Random;

/// The numbers a scene draws on, in no order: a path whose rows simply follow
/// one another would not show in which order it was walked.
pub struct Cast {
    pub persons: Vec<u32>,
    pub categories: Vec<u32>,
    pub deeds: Vec<u32>,
    pub variants: Vec<u32>,
    pub folios: Vec<u32>,
}

pub fn cast(random: &mut Random) -> Cast {
    let style = random.below(4);
    // The same numbers for every type: only the place in a path, or the kind
    // of an edge, then tells which is meant.
    let same = random.one_in(4);
    let shared = numbers(random, style, 12);
    let part = |random: &mut Random, size: usize| {
        let mut some = if same { shared.clone() } else { numbers(random, style, 12) };
        random.shuffle(&mut some);
        some.truncate(size);
        some
    };
    let persons = part(random, 3);
    let categories = part(random, 12);
    let deeds = part(random, 2);
    let folios = part(random, 3);
    Cast { persons, categories, deeds, variants: variant_words(random), folios }
}

const EXTREMES: [u32; 14] = [
    1,
    2,
    3,
    255,
    256,
    65_535,
    65_536,
    0x7FFF_FFFF,
    0x8000_0000,
    0x8000_0001,
    0x00FF_FFFF,
    0x0100_0000,
    u32::MAX - 1,
    u32::MAX,
];

fn numbers(random: &mut Random, style: usize, size: usize) -> Vec<u32> {
    let mut numbers = BTreeSet::new();
    while numbers.len() < size {
        numbers.insert(match style {
            0 => 1 + random.below(2 * size) as u32,
            1 => u32::MAX - random.below(2 * size) as u32,
            2 => random.pick(&EXTREMES),
            _ => random.word().max(1),
        });
    }
    let mut numbers: Vec<u32> = numbers.into_iter().collect();
    random.shuffle(&mut numbers);
    numbers
}

fn variant_words(random: &mut Random) -> Vec<u32> {
    let crowded = random.one_in(2);
    let mut variants = BTreeSet::new();
    while variants.len() < 4 {
        variants.insert(if crowded { random.below(6) as u32 } else { random.odd_word() });
    }
    let mut variants: Vec<u32> = variants.into_iter().collect();
    random.shuffle(&mut variants);
    variants
}
