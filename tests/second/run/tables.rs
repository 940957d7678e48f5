//! A run against the driver that puts one row to a lent table.

use std::collections::BTreeMap;
use std::time::Duration;

use crate::cases::tables::{TableCase, Tables};
use crate::goals::tables::{met, misses, needed};
use crate::run::options::Options;
use crate::run::tally::Tally;
use crate::trial::conversation;

/// Tables that chance makes.
pub const CASES: usize = 8_000;

const MOST_SHOWN: usize = 10;

pub fn run(options: &Options) -> Tally {
    println!("seed {}", options.seed);
    let tables = Tables::new(options.seed, CASES);
    let asked = |number: &usize| options.case.is_none_or(|only| only == *number);
    let numbers: Vec<usize> = (0..tables.len()).filter(asked).collect();
    let (mut tally, count) = (Tally::default(), numbers.len());
    let (mut kinds, mut goals) = (BTreeMap::new(), BTreeMap::new());
    let (mut answered, mut histories) = (0, 0);
    let cases = numbers.into_iter().map(move |number| {
        let case = tables.case(number);
        let (lending, expected) = (case.lending.clone(), case.expected.clone());
        (case, lending, expected)
    });
    let patience = Duration::from_secs(options.patience);
    let faults =
        conversation::question(&options.command, cases, patience, |case, mut differences| {
            answered += 1;
            histories += usize::from(case.stands);
            *kinds.entry(case.kind).or_insert(0) += 1;
            met(&case.lending, &case.expected, case.stands)
                .into_iter()
                .for_each(|goal| *goals.entry(goal).or_insert(0) += 1);
            differences.extend(case.own_fault.clone());
            tally.count(differences.is_empty());
            if options.case.is_some() || (!differences.is_empty() && tally.failed <= MOST_SHOWN) {
                show(&case, &differences);
            }
        });
    faults.iter().for_each(|fault| tally.test(&format!("the driver: {fault}"), false));
    tally.test(&format!("{answered} of {count} tables came back"), answered == count);
    println!("{answered} tables, {histories} of them compared with a history too");
    kinds.iter().for_each(|(kind, count)| println!("  {kind}: {count}"));
    if options.case.is_none() {
        test_goals(&mut tally, &goals);
    }
    tally
}

fn test_goals(tally: &mut Tally, goals: &BTreeMap<String, usize>) {
    println!("goals of the tables:");
    let misses = misses(goals);
    for goal in needed() {
        println!("  {goal}: {}", goals.get(&goal).unwrap_or(&0));
        tally.test(&format!("never met: {goal}"), !misses.contains(&goal));
    }
}

fn show(case: &TableCase, differences: &[String]) {
    let word = if differences.is_empty() { "table" } else { "FAILED: table" };
    println!("{word} {}, {}: {}", case.number, case.kind, case.name);
    differences.iter().for_each(|difference| println!("    {difference}"));
    let lending = &case.lending;
    println!("    timeout {}, row {:?}", lending.timeout, lending.row);
    println!("    sheet {:?}", lending.sheet);
    println!("    last minute {}", lending.watch.last);
    for (at, place) in lending.watch.places.iter().enumerate() {
        println!("    place {at}: {place:?}");
    }
    println!("    expected {:?}, then the table {:?}", case.expected.answer, case.expected.watch);
}
