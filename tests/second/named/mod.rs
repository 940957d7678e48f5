//! Cases with a name. Each says literally what the document says of it; the model
//! is asked as well, and a disagreement between the two is a failure. `checks` and
//! `rows` are about the checks, and a `Book` has what is asked by all others.

pub mod addition_refusals;
pub mod additions;
pub mod book;
pub mod checks;
pub mod full_sheets;
pub mod join_refusals;
pub mod joins;
pub mod layout;
pub mod listing_refusals;
pub mod listings;
pub mod lookups;
pub mod memberships;
pub mod neighbours;
pub mod paths;
pub mod positions;
pub mod question_refusals;
pub mod questions;
pub mod redundant;
pub mod removals;
pub mod rows;
pub mod sister;
pub mod survey_refusals;
pub mod surveys;
pub mod tables;
pub mod takings;
pub mod ties;
pub mod traces;
pub mod ways;
