//! One run against the trial program, or against the driver of lent tables: which cases are chosen on the command line,
//! how they are put to it, what is counted and what is printed.

pub mod options;
pub mod progress;
pub mod report;
pub mod seeds;
pub mod tables;
pub mod tally;

use std::sync::Arc;
use std::time::Duration;

use crate::cases::plan::Plan;
use crate::cases::removals::Removals;
use crate::model::answer::ANSWER;
use crate::model::redundant::redundant_rows;
use crate::model::removal::{every_answer, harm, removals};
use crate::run::options::Options;
use crate::run::progress::Progress;
use crate::run::report::Report;
use crate::run::tally::Tally;
use crate::trial::conversation;

pub fn run(options: &Options) -> Tally {
    println!("seed {}", options.seed);
    let plan = Arc::new(Plan::new(options.seed, options.counts));
    let numbers = chosen(options, &plan);
    if numbers.is_empty() {
        println!("no case is chosen: the last is {}; --only names operations", plan.len() - 1);
        return Tally::default();
    }
    let scope = options.only.clone();
    let mut report = Report::new(plan.clone(), numbers.clone(), scope, options.case.is_some());
    if options.case.is_none() && options.only.has(ANSWER) {
        remove_all(&plan.removals, &mut report);
    }
    let cases = numbers.into_iter().map(move |number| {
        let case = plan.case(number);
        (case.about, case.request, case.expected)
    });
    let patience = Duration::from_secs(options.patience);
    let mut progress = options.long.then(|| Progress::of(report.len()));
    let faults = conversation::question(&options.command, cases, patience, |about, differences| {
        report.answered(about, differences);
        progress.iter_mut().for_each(Progress::step);
    });
    report.close(faults)
}

/// Every edge that question 10 lists, removed by this program alone, one at a time:
/// the sheet is still accepted, and no answer is another.
fn remove_all(drawn: &Removals, report: &mut Report) {
    for at in 0..drawn.sheets {
        let words = drawn.sheet(at);
        let before = every_answer(&words);
        let answers = before.iter().map(|said| said.at.len() + said.joint.len()).sum();
        for removal in removals(&words, redundant_rows) {
            report.removed(at, &removal, answers, harm(&before, &removal.rest));
        }
    }
}

/// The numbers of the cases that are put to the trial.
fn chosen(options: &Options, plan: &Plan) -> Vec<usize> {
    let asked = |&number: &usize| options.case.map_or(true, |only| only == number);
    let in_scope = |&number: &usize| {
        options.only.is_all() || options.only.has(plan.case(number).about.operation)
    };
    (0..plan.len()).filter(asked).filter(in_scope).collect()
}
