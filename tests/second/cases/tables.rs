//! One row on a lent table, case by case: first tables written out by hand, then one for each
//! refusal of a sheet, then those that chance makes. Where a table stands for a history, the
//! history says the same.

use std::collections::BTreeSet;

use crate::generate::random::Random;
use crate::generate::{damage, watches};
use crate::model::sheet::words_of;
use crate::model::trace::{held, is_open, Desk, TraceRow, QUESTION, START};
use crate::model::watch::Watch;
use crate::named;
use crate::named::tables::Written;
use crate::trial::lending::{Lending, Returned};

const STREAM: u64 = 0x4C65_6E74_5461_626C;

pub struct Tables {
    seed: u64,
    named: Vec<Written>,
    random: usize,
}

pub struct TableCase {
    pub number: usize,
    pub kind: &'static str,
    pub name: String,
    pub lending: Lending,
    pub expected: Returned,
    /// What is written out against the table's model, or that against the history.
    pub own_fault: Option<String>,
    /// Whether there is a history to compare with.
    pub stands: bool,
}

impl Tables {
    pub fn new(seed: u64, random: usize) -> Tables {
        Tables { seed: seed ^ STREAM, named: named::tables::all(), random }
    }

    pub fn len(&self) -> usize {
        self.named.len() + self.random
    }

    pub fn case(&self, number: usize) -> TableCase {
        let written = self.named.get(number);
        let (kind, name, lending) = match written {
            Some(it) => ("named", it.name.clone(), it.lending.clone()),
            None => {
                let mut random = Random::for_case(self.seed, number as u64);
                let (kind, mut lending) = watches::any(&mut random);
                let number = (number - self.named.len()) as u32 + 1;
                if number <= 17 {
                    lending.sheet = words_of(&damage::aimed_anywhere(&mut random, number));
                }
                (kind, String::new(), lending)
            }
        };
        let expected = lending.expected();
        let slip = written.filter(|it| it.says != expected);
        let slip = slip.map(|it| format!("written {:?}, this program {expected:?}", it.says));
        let history = history(&lending.watch);
        let stands = history.is_some();
        let unlike = history.and_then(|rows| unlike(&lending, &expected, &rows));
        TableCase { number, kind, name, lending, expected, own_fault: slip.or(unlike), stands }
    }
}

/// The rows that a table stands for: both starts of each place, and a question of the last
/// minute, which holds nothing. None where no rows can have led to it.
pub fn history(watch: &Watch) -> Option<Vec<TraceRow>> {
    let ordered = |earlier: u32, latest: u32| earlier <= latest && latest <= watch.last;
    if watch.names_twice() || watch.used().any(|it| !ordered(it.earlier, it.latest)) {
        return None;
    }
    let row = |minute, kind, folio| TraceRow { minute, kind, folio, person: 0, deed: 0 };
    let mut rows: Vec<TraceRow> = Vec::new();
    for place in watch.used() {
        rows.extend([place.earlier, place.latest].map(|it| row(it, START, place.folio)));
    }
    rows.sort_by_key(|row| row.minute);
    rows.push(row(watch.last, QUESTION, 0));
    Some(rows)
}

/// How the step differs from what the whole history says, if it does: by its answer, or by
/// what is held or open after it, at each minute at which that may change.
pub fn unlike(lending: &Lending, said: &Returned, rows: &[TraceRow]) -> Option<String> {
    let desk = Desk::of(&lending.sheet, lending.timeout);
    let by_history = desk.and_then(|desk| desk.next(rows, &lending.row));
    let by_history = Returned::of(by_history, said.watch.clone());
    if by_history != *said {
        return Some(format!("the history says {:?}", by_history.answer));
    }
    let row = TraceRow::of(&lending.row).filter(|_| said.answer[0] == 0)?;
    let after = history(&said.watch);
    let (whole, timeout) = ([rows, &[row]].concat(), lending.timeout);
    let Some(after) = after else { return Some("the table after has no history".to_string()) };
    let minutes = minutes(&whole, row.minute, timeout);
    let other = minutes.into_iter().find(|&minute| {
        let folios: BTreeSet<u32> = whole.iter().map(|row| row.folio).collect();
        let open = |rows: &[TraceRow]| -> Vec<bool> {
            folios.iter().map(|&folio| is_open(rows, folio, minute, timeout)).collect()
        };
        held(&whole, minute, timeout) != held(&after, minute, timeout)
            || open(&whole) != open(&after)
    });
    other.map(|minute| format!("the history holds something else at minute {minute}"))
}

/// From this one on.
fn minutes(rows: &[TraceRow], from: u32, timeout: u32) -> BTreeSet<u32> {
    let expiry = |row: &TraceRow| u64::from(row.minute) + u64::from(timeout);
    let near = rows.iter().map(expiry).chain([u64::from(from) + 1]);
    let all = near.flat_map(|minute| [minute.saturating_sub(1), minute]);
    all.filter_map(|minute| u32::try_from(minute).ok()).filter(|&it| it >= from).collect()
}
