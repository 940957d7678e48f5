//! Wrong versions of the operations, each with one mistake that looks reasonable.
//! The generated cases have to tell every one of them from the right one, or they
//! would not show it in the trial either.

pub mod addition_refusals;
pub mod additions;
pub mod full_sheets;
pub mod join_refusals;
pub mod joins;
pub mod lines;
pub mod listings;
pub mod lookups;
pub mod positions;
pub mod redundant;
pub mod surveys;
pub mod tables;
pub mod takings;
pub mod traces;
pub mod typings;
pub mod ways;

use crate::model::answer::{Answer, Refusal};
use crate::trial::request::Request;

pub type Outcome = Result<Answer, Refusal>;

/// What the wrong versions of some operations look at.
pub trait Asked: Sized {
    /// Nothing where a request does not come so far.
    fn of(request: &Request) -> Option<Self>;
}

pub struct Misreading<A> {
    pub name: &'static str,
    /// The operations that it should be seen in.
    pub operations: &'static [u32],
    pub read: fn(&A) -> Outcome,
}

pub const fn wrong<A>(
    name: &'static str,
    operations: &'static [u32],
    read: fn(&A) -> Outcome,
) -> Misreading<A> {
    Misreading { name, operations, read }
}
