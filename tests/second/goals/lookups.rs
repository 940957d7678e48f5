//! What the lookup in two sheets must have been asked and answered, goal by
//! goal.

use crate::goals::rooms::chosen;
use crate::model::judge::judge_words;
use crate::model::limits::{MOST_OFFICES, NODE_WIDTH};
use crate::model::lookup::{standing, Wanted};
use crate::model::marks::all_marks;
use crate::model::sheet::*;
use crate::trial::request::{Expected, Request};

const REFUSED: [&str; 5] = [
    "both sheets are bad",
    "the second is bad, and the first has it",
    "the first is bad, and the second has it",
    "the first is bad, and the second has it not",
    "the second is bad, and the first has it not",
];

const FOUND: [&str; 17] = [
    "in the first alone",
    "in the second alone",
    "in both, equal rows",
    "in both, different offices",
    "in both, of different office counts",
    "the first row of the first",
    "the last row of the first",
    "the first row of the second",
    "the last row of the second",
    "the same sheet twice",
    "the second within the first",
    "the first within the second",
    "in the first, empty the second",
    "in the second, empty the first",
    "a variant one apart stands beside it",
    "in the second, a variant one apart in the first",
    "in the second, the number of another type in the first",
];

const NOT_FOUND: [&str; 9] = [
    "no such type",
    "number 0",
    "a variant, and no deed",
    "a number one apart",
    "a variant one apart",
    "another type's number",
    "both empty",
    "the first empty",
    "the second empty",
];

const FULL: [&str; 3] = ["a full first sheet", "a full second sheet", "two full sheets"];

pub fn needed() -> Vec<String> {
    let mut goals = Vec::new();
    for sheet in 1..=2 {
        goals.extend((1..=17).map(|number| format!("refusal {number} of sheet {sheet}")));
    }
    goals.push("refusal 32".to_string());
    goals.extend(REFUSED.map(String::from));
    goals.extend(FOUND.map(|goal| format!("found, {goal}")));
    goals.extend((PERSON..=FOLIO).map(|sort| format!("found, of type {sort}")));
    let offices = 1..=all_marks(MOST_OFFICES);
    goals.extend(offices.map(|offices| format!("found, of offices {offices}")));
    goals.extend((0..=NODE_WIDTH).map(|room| format!("found, room for {room} words")));
    goals.push("found, room to spare".to_string());
    goals.extend(NOT_FOUND.map(|goal| format!("not found, {goal}")));
    for outcome in ["found", "not found"] {
        goals.extend(FULL.map(|goal| format!("{outcome}, {goal}")));
    }
    goals
}

struct Seen {
    wanted: Wanted,
    first: Vec<u32>,
    second: Vec<u32>,
    room: usize,
}

/// The goals one case meets, from what is expected of it.
pub fn met(request: &Request, expected: &Expected) -> Vec<String> {
    let [sort, number, variant, ..] = request.numbers;
    let seen = Seen {
        wanted: [sort, number, variant],
        first: words_of(&request.first),
        second: words_of(&request.second),
        room: request.out_len,
    };
    match expected.reply[..3] {
        [0, ..] => seen.found(),
        [32, ..] => seen.not_found(),
        [number, sheet, _] => {
            let mut goals = vec![format!("refusal {number} of sheet {sheet}")];
            goals.extend(seen.refused().map(String::from));
            goals
        }
        _ => Vec::new(),
    }
}

/// Whether every row of the one stands in the other, and not the other way.
fn within(inner: &[Row], outer: &[Row]) -> bool {
    let has = |row: &Row| outer.iter().any(|other| other[..3] == row[..3]);
    !inner.is_empty() && inner.len() < outer.len() && inner.iter().all(has)
}

/// Only one word of the three may differ, and that by one.
fn one_apart(row: &Row, wanted: Wanted, place: usize) -> bool {
    let others = (0..3).filter(|&at| at != place).all(|at| row[at] == wanted[at]);
    others && row[place].abs_diff(wanted[place]) == 1
}

impl Seen {
    fn refused(&self) -> Option<&'static str> {
        let good = |words: &[u32]| judge_words(words).number == 0;
        let has = |words: &[u32]| standing(self.wanted, words).is_some();
        Some(match (good(&self.first), good(&self.second)) {
            (true, false) if has(&self.first) => REFUSED[1],
            (true, false) => REFUSED[4],
            (false, true) if has(&self.second) => REFUSED[2],
            (false, true) => REFUSED[3],
            _ => REFUSED[0],
        })
    }

    fn full(&self, outcome: &str) -> Vec<String> {
        let (first, second) = (is_full(&self.first), is_full(&self.second));
        chosen(&FULL, &[first && !second, second && !first, first && second], outcome)
    }

    fn found(&self) -> Vec<String> {
        let [one, other] = [&self.first, &self.second].map(|words| standing(self.wanted, words));
        let row = one.or(other).unwrap_or_default();
        let mut goals = chosen(&FOUND, &self.found_where(one, other), "found");
        goals.push(format!("found, of type {}", row[0]));
        goals.push(format!("found, of offices {}", row[3]));
        goals.push(match self.room {
            0..=NODE_WIDTH => format!("found, room for {} words", self.room),
            _ => "found, room to spare".to_string(),
        });
        goals.extend(self.full("found"));
        goals
    }

    /// In the order of the goals.
    fn found_where(&self, one: Option<Row>, other: Option<Row>) -> [bool; 17] {
        let [first, second] = [&self.first, &self.second].map(|words| node_rows(words));
        let in_first = one.is_some();
        let in_second_alone = !in_first;
        let both = in_first && other.is_some();
        let own = if in_first { &first } else { &second };
        let several = own.len() > 2;
        let at_start = several && own.first().copied() == one.or(other);
        let at_end = several && own.last().copied() == one.or(other);
        let beside = |rows: &[Row]| rows.iter().any(|row| one_apart(row, self.wanted, 2));
        let namesake = first.iter().any(|row| row[1..3] == self.wanted[1..]);
        [
            in_first && !both,
            in_second_alone,
            both && one == other,
            both && one != other,
            both && office_count(&self.first) != office_count(&self.second),
            in_first && at_start,
            in_first && at_end,
            in_second_alone && at_start,
            in_second_alone && at_end,
            self.first == self.second,
            within(&second, &first),
            within(&first, &second),
            second.is_empty(),
            first.is_empty(),
            beside(own),
            in_second_alone && beside(&first),
            in_second_alone && namesake,
        ]
    }

    fn not_found(&self) -> Vec<String> {
        let [first, second] = [&self.first, &self.second].map(|words| node_rows(words));
        let [sort, number, variant] = self.wanted;
        let any = |fits: &dyn Fn(&Row) -> bool| first.iter().chain(&second).any(fits);
        let met = [
            !(PERSON..=FOLIO).contains(&sort),
            number == 0,
            (PERSON..=FOLIO).contains(&sort) && sort != DEED && variant != 0,
            any(&|row| one_apart(row, self.wanted, 1)),
            any(&|row| one_apart(row, self.wanted, 2)),
            any(&|row| row[1..3] == self.wanted[1..]),
            first.is_empty() && second.is_empty(),
            first.is_empty() && !second.is_empty(),
            second.is_empty() && !first.is_empty(),
        ];
        let mut goals = chosen(&NOT_FOUND, &met, "not found");
        goals.push("refusal 32".to_string());
        goals.extend(self.full("not found"));
        goals
    }
}
