//! Tests that this program answers the named cases as the document does.

use std::collections::BTreeSet;

use crate::cases::plan::{Counts, Plan};
use crate::named::book::Asked;
use crate::run::tally::Tally;

/// `first` tells where in a plan these cases begin.
pub fn run(tally: &mut Tally, what: &str, named: &[Asked], first: fn(&Plan) -> usize) {
    let plan = Plan::new(0, Counts::default());
    let start = first(&plan);
    for (at, asked) in named.iter().enumerate() {
        let own_fault = plan.case(start + at).about.own_fault;
        tally.test(&format!("answer to the named case: {}", asked.name), own_fault.is_none());
    }
    let names: BTreeSet<&str> = named.iter().map(|asked| asked.name.as_str()).collect();
    tally.test(&format!("no two named {what} share a name"), names.len() == named.len());
}
