//! Tests that the generated cases tell each wrong version from the right one.

use crate::cases::plan::{Case, Counts, Plan};
use crate::misread::{surveys, Asked, Misreading};
use crate::model::survey::survey;
use crate::run::tally::Tally;
use crate::selftest::repeatable::NONE;
use crate::trial::expect::told;

/// A quarter of the random cases of a run, and how many of them have to show
/// each mistake.
const CASES: usize = 6_000;
const ENOUGH: usize = 10;

pub fn run(tally: &mut Tally) {
    let plan = Plan::new(1, Counts { surveys: CASES, ..NONE });
    let end = plan.before_lookups();
    let cases: Vec<Case> = (end - CASES..end).map(|number| plan.case(number)).collect();
    told_apart(tally, &cases, surveys::all().iter(), ENOUGH);
    let right = cases.iter().all(|case| {
        surveys::Asking::of(&case.request).is_none_or(|asking| {
            let said = survey(asking.operation, &asking.numbers, &asking.words, asking.room);
            told(&case.request, said) == case.expected
        })
    });
    tally.test("the right version is not told apart", right);
}

/// Each wrong version is seen in so many cases of each of its operations.
pub fn told_apart<'a, A: Asked + 'a>(
    tally: &mut Tally,
    cases: &[Case],
    versions: impl Iterator<Item = &'a Misreading<A>>,
    enough: usize,
) {
    let asked: Vec<(&Case, A)> =
        cases.iter().filter_map(|case| Some((case, A::of(&case.request)?))).collect();
    for version in versions {
        for &operation in version.operations {
            let own = asked.iter().filter(|(case, _)| case.request.operation == operation);
            let shown = own.filter(|(case, asked)| {
                told(&case.request, (version.read)(asked)) != case.expected
            });
            let name = format!("told apart in operation {operation}: {}", version.name);
            tally.test(&name, shown.take(enough).count() == enough);
        }
    }
}
