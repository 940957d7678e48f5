//! The cases that are put to the trial program, numbered from 0. A plan has the
//! checks, eight series, one for each kind of operation, the full sheets of questions 1 to 4,
//! the sheets built row by row, and the removals; a case follows from the seed and its number, and carries what is expected
//! of it. `tables` are put to another program, and numbered by themselves.

pub mod additions;
pub mod built;
pub mod checks;
pub mod full_sheets;
pub mod joins;
pub mod large;
pub mod listings;
pub mod lookups;
pub mod plan;
pub mod questions;
pub mod removals;
pub mod series;
pub mod surveys;
pub mod tables;
pub mod takings;
pub mod tours;
pub mod traces;
pub mod ways;
