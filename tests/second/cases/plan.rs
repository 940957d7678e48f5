//! What is put to the trial, case by case. A case of a check follows from the
//! seed and its number alone; the questions come after the checks, 5 to 10 after
//! 1 to 4, then the lookup, then joining and taking out, then the other ways to
//! questions 1 to 3, then the listings, then rows searched and added, then traces, then
//! questions 1 to 4 on full sheets, then sheets built row by row, then the removals, so
//! their numbers follow from how many there are before them.

use crate::cases::built::{self, Built};
use crate::cases::checks::Checks;
use crate::cases::removals::{self, Removals};
use crate::cases::series::{Made, Series};
use crate::cases::{
    additions, full_sheets, joins, listings, lookups, questions, surveys, traces, ways,
};
use crate::goals;
use crate::goals::coverage::{self, Cell};
use crate::trial::expect::expect;
use crate::trial::request::{Expected, Request};

/// What is remembered of a case while its reply is on the way.
pub struct About {
    pub number: usize,
    pub kind: &'static str,
    pub name: String,
    pub operation: u32,
    pub cell: Cell,
    /// What a question meets of its coverage.
    pub goals: Vec<String>,
    /// The judge against what a named case says, or against the way a sheet
    /// was made: a slip of this program, not of the trial.
    pub own_fault: Option<String>,
}

impl About {
    /// Cases that are neither named nor aimed have their kind alone.
    pub fn title(&self) -> String {
        match self.name.as_str() {
            "" => self.kind.to_string(),
            name => format!("{}: {name}", self.kind),
        }
    }
}

pub struct Case {
    pub about: About,
    pub request: Request,
    pub expected: Expected,
}

/// How many random cases there are: of the checks, of questions 1 to 4, of 5 to
/// 10, of the lookup, of joining and taking out, of the other ways to questions 1
/// to 3, of the listings, and of rows searched and added; how many traces there are, each
/// of which is two cases; how many sheets are built row by row, and how many have edges
/// removed.
#[derive(Clone, Copy, Default)]
pub struct Counts {
    pub checks: usize,
    pub questions: usize,
    pub surveys: usize,
    pub lookups: usize,
    pub joins: usize,
    pub ways: usize,
    pub listings: usize,
    pub additions: usize,
    pub traces: usize,
    pub built: usize,
    pub removals: usize,
}

impl Counts {
    /// So many of everything but the checks.
    pub fn with_others(self, each: usize) -> Counts {
        Counts {
            checks: self.checks,
            questions: each,
            surveys: each,
            lookups: each,
            joins: each,
            ways: each,
            listings: each,
            additions: each,
            traces: each.div_ceil(traces::LEGS),
            built: each.div_ceil(built::ASKED),
            removals: each.div_ceil(removals::ASKED),
        }
    }

    /// At least so many in all, with shares that give each operation some, and the
    /// slower ones fewer.
    pub fn of_long_run(total: usize) -> Counts {
        let share = |percent: usize| (total * percent).div_ceil(100);
        Counts {
            checks: share(11),
            questions: share(17),
            surveys: share(18),
            lookups: share(5),
            joins: share(10),
            ways: share(12),
            listings: share(9),
            additions: share(5),
            traces: share(6).div_ceil(traces::LEGS),
            built: share(2).div_ceil(built::ASKED),
            removals: share(5).div_ceil(removals::ASKED),
        }
    }
}

pub struct Plan {
    checks: Checks,
    /// Questions 1 to 4, 5 to 10, the lookup, joining and taking out, the other ways,
    /// the listings, rows searched and added, traces, full sheets.
    series: [Series; 9],
    built: Built,
    pub removals: Removals,
}

impl Plan {
    pub fn new(seed: u64, counts: Counts) -> Plan {
        Plan {
            checks: Checks::new(seed, counts.checks),
            series: [
                questions::series(seed, counts.questions),
                surveys::series(seed, counts.surveys),
                lookups::series(seed, counts.lookups),
                joins::series(seed, counts.joins),
                ways::series(seed, counts.ways),
                listings::series(seed, counts.listings),
                additions::series(seed, counts.additions),
                traces::series(seed, counts.traces),
                full_sheets::series(seed),
            ],
            built: Built::new(seed, counts.built),
            removals: Removals::new(seed, counts.removals),
        }
    }

    /// Where the cases of a series begin.
    fn before(&self, series: usize) -> usize {
        self.checks.len() + self.series[..series].iter().map(Series::len).sum::<usize>()
    }

    pub fn before_questions(&self) -> usize {
        self.before(0)
    }

    pub fn before_surveys(&self) -> usize {
        self.before(1)
    }

    pub fn before_lookups(&self) -> usize {
        self.before(2)
    }

    pub fn before_joins(&self) -> usize {
        self.before(3)
    }

    pub fn before_ways(&self) -> usize {
        self.before(4)
    }

    pub fn before_listings(&self) -> usize {
        self.before(5)
    }

    pub fn before_additions(&self) -> usize {
        self.before(6)
    }

    pub fn before_traces(&self) -> usize {
        self.before(7)
    }

    pub fn before_full_sheets(&self) -> usize {
        self.before(8)
    }

    pub fn before_built(&self) -> usize {
        self.before(self.series.len())
    }

    pub fn before_removals(&self) -> usize {
        self.before_built() + self.built.len()
    }

    pub fn len(&self) -> usize {
        self.before_removals() + self.removals.len()
    }

    pub fn case(&self, number: usize) -> Case {
        if let Some(at) = number.checked_sub(self.before_removals()) {
            return self.removals.case(number, at);
        }
        if let Some(at) = number.checked_sub(self.before_built()) {
            return self.built.case(number, at);
        }
        match (0..self.series.len()).rev().find(|&at| self.before(at) <= number) {
            Some(at) => asked_case(number, self.series[at].case(number - self.before(at))),
            None => self.checks.case(number),
        }
    }
}

pub fn asked_case(number: usize, (kind, name, request, own_fault): Made) -> Case {
    let mut case = judged(number, kind, name, request);
    case.about.goals = goals::met(&case.request, &case.expected);
    case.about.own_fault = own_fault;
    case
}

/// A case with what is expected of it.
pub fn judged(number: usize, kind: &'static str, name: String, request: Request) -> Case {
    let expected = expect(&request);
    let cell = coverage::cell(&request, &expected);
    let operation = request.operation;
    let about = About { number, kind, name, operation, cell, goals: Vec::new(), own_fault: None };
    Case { about, request, expected }
}
