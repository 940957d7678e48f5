//! Which offices a row is marked with.

use crate::generate::random::Random;

/// The sums that lie within these offices, rising; the last is all of them.
fn parts(offices: u32) -> Vec<u32> {
    (1..=offices).filter(|part| part & !offices == 0).collect()
}

/// One of the parts of these offices; all of them have so many chances more.
pub fn part_of(random: &mut Random, offices: u32, more: usize) -> u32 {
    let parts = parts(offices);
    match parts.len() {
        1 => offices,
        count => parts.get(random.below(count + more)).copied().unwrap_or(offices),
    }
}

/// All of these offices in so many cases, and each smaller part in one.
pub fn mostly_all(random: &mut Random, offices: u32, cases: usize) -> u32 {
    let parts = parts(offices);
    let chance = random.below(cases + parts.len() - 1);
    chance.checked_sub(cases).map_or(offices, |at| parts[at])
}

/// Some of several offices, but not all.
pub fn smaller_part(random: &mut Random, offices: u32) -> u32 {
    let parts = parts(offices);
    random.pick(&parts[..parts.len() - 1])
}
