//! Tests that a case follows from the seed and its number alone.

use crate::cases::plan::{Counts, Plan};
use crate::run::tally::Tally;

/// No random case of any kind.
pub const NONE: Counts = Counts {
    checks: 0,
    questions: 0,
    surveys: 0,
    lookups: 0,
    joins: 0,
    ways: 0,
    listings: 0,
    additions: 0,
    traces: 0,
    built: 0,
    removals: 0,
};

/// Random cases that are looked at, and how many there are in a longer plan.
const SOME: usize = 200;
const MORE: usize = 900;

/// The random cases of one kind, which end where `end` says: the same in a longer
/// plan of the same seed, and all of them others in one of another seed.
pub fn repeatable(
    tally: &mut Tally,
    what: &str,
    end: fn(&Plan) -> usize,
    counts: fn(usize) -> Counts,
) {
    let of = |seed: u64, random: usize| Plan::new(seed, counts(random));
    let (plan, again, other) = (of(5, SOME), of(5, MORE), of(6, SOME));
    let bytes = |plan: &Plan, number: usize| plan.case(number).request.bytes();
    let numbers = end(&plan) - SOME..end(&plan);
    let same = numbers.clone().rev().all(|number| bytes(&plan, number) == bytes(&again, number));
    tally.test(&format!("a {what} follows from seed and number"), same);
    let differ = numbers.filter(|&number| bytes(&plan, number) != bytes(&other, number)).count();
    tally.test(&format!("another seed makes another {what} each time"), differ == SOME);
}
