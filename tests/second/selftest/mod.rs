//! Tests of this program by itself: a model or a comparer that says yes to
//! everything would make every run pass. What the model says is compared with
//! sheets worked out by hand and with paths counted out; the cases have to be
//! repeatable, and have to tell each misreading from the right answer.

pub mod additions;
pub mod benchmark;
pub mod checks;
pub mod counted;
pub mod full_sheets;
pub mod joins;
pub mod listings;
pub mod lookups;
pub mod misread;
pub mod named;
pub mod paths;
pub mod questions;
pub mod removals;
pub mod repeatable;
pub mod surveys;
pub mod tables;
pub mod traces;
pub mod ways;

use crate::run::tally::Tally;

pub fn run() -> Tally {
    let mut tally = Tally::default();
    checks::run(&mut tally);
    questions::run(&mut tally);
    paths::run(&mut tally);
    surveys::run(&mut tally);
    counted::run(&mut tally);
    misread::run(&mut tally);
    lookups::run(&mut tally);
    joins::run(&mut tally);
    ways::run(&mut tally);
    listings::run(&mut tally);
    additions::run(&mut tally);
    traces::run(&mut tally);
    tables::run(&mut tally);
    full_sheets::run(&mut tally);
    removals::run(&mut tally);
    benchmark::run(&mut tally);
    tally
}
