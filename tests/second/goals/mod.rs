//! What the operations must have been asked and answered, goal by goal, and which
//! refusals must have been reached. A goal that no case met was not tried, so each
//! is a failed test.

pub mod additions;
pub mod contents;
pub mod coverage;
pub mod joins;
pub mod lines;
pub mod listings;
pub mod lookups;
pub mod positions;
pub mod questions;
pub mod redundant;
pub mod removals;
pub mod rooms;
pub mod surveys;
pub mod tables;
pub mod takings;
pub mod trace_refusals;
pub mod traces;
pub mod ways;

use std::collections::BTreeMap;

use crate::model::position::TABLES;
use crate::model::survey::is_survey;
use crate::trial::operation::{
    adding, called, finding, operations, table_of, way_of, CHECK_WORDS, JOIN, LOOKUP, READ_LISTING,
    STEPS, TAKE_OUT, TRACE, WRITE_LISTING,
};
use crate::trial::request::{Expected, Request};
use crate::trial::scope::Scope;

pub fn needed() -> Vec<String> {
    let mut goals = questions::needed();
    goals.extend(removals::needed());
    goals.extend(surveys::needed());
    goals.extend(of_operation(LOOKUP, lookups::needed()));
    goals.extend(of_operation(JOIN, joins::needed()));
    goals.extend(of_operation(TAKE_OUT, takings::needed()));
    goals.extend(ways::needed());
    goals.extend(of_operation(READ_LISTING, listings::needed_reading()));
    goals.extend(of_operation(WRITE_LISTING, listings::needed_writing()));
    for table in TABLES {
        goals.extend(of_operation(finding(table), positions::needed(table)));
        goals.extend(of_operation(adding(table), additions::needed(table)));
    }
    goals.extend(additions::needed_built());
    for operation in [TRACE, STEPS] {
        goals.extend(of_operation(operation, traces::needed(operation)));
    }
    goals
}

fn of_operation(operation: u32, goals: Vec<String>) -> Vec<String> {
    goals.into_iter().map(|goal| format!("{}: {goal}", called(operation))).collect()
}

/// The goals of the operations that a run is about. Each begins with its
/// question or operation.
pub fn needed_in(scope: &Scope) -> Vec<String> {
    let of_scope = |goal: &String| {
        let all = (CHECK_WORDS..=TAKE_OUT).chain(operations()).chain(READ_LISTING..=STEPS);
        let mut own = all.filter(|&operation| scope.has(operation));
        own.any(|operation| goal.starts_with(&format!("{}: ", called(operation))))
    };
    needed().into_iter().filter(of_scope).collect()
}

/// The goals one case meets, from what is expected of it.
pub fn met(request: &Request, expected: &Expected) -> Vec<String> {
    let operation = request.operation;
    if is_survey(operation) {
        return surveys::met(request, expected);
    }
    match operation {
        LOOKUP => return of_operation(operation, lookups::met(request, expected)),
        JOIN => return of_operation(operation, joins::met(request, expected)),
        TAKE_OUT => return of_operation(operation, takings::met(request, expected)),
        READ_LISTING => return of_operation(operation, listings::met_reading(request, expected)),
        WRITE_LISTING => return of_operation(operation, listings::met_writing(request, expected)),
        TRACE | STEPS => return of_operation(operation, traces::met(request, expected)),
        _ => {}
    }
    if let Some(table) = table_of(operation) {
        let own = match operation == finding(table) {
            true => positions::met(request, expected, table),
            false => additions::met(request, expected, table),
        };
        return of_operation(operation, own);
    }
    match way_of(operation) {
        Some((way, question)) => ways::met(request, expected, way, question),
        None => questions::met(request, expected),
    }
}

#[derive(Default)]
pub struct Goals {
    counts: BTreeMap<String, usize>,
}

impl Goals {
    pub fn add(&mut self, goal: &str) {
        *self.counts.entry(goal.to_string()).or_insert(0) += 1;
    }

    pub fn misses(&self) -> Vec<String> {
        needed().into_iter().filter(|goal| !self.counts.contains_key(goal)).collect()
    }

    pub fn print(&self, scope: &Scope) {
        println!("goals of the operations:");
        for goal in needed_in(scope) {
            println!("  {goal}: {}", self.counts.get(&goal).unwrap_or(&0));
        }
    }
}
