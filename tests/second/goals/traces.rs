//! What a trace of the duty desk must have been, goal by goal: of its questions, starts and
//! ends, of its answers and of its room. The row by which it was refused stands in
//! `trace_refusals`.

use std::collections::BTreeSet;

use crate::goals::rooms::{chosen, room_goal, ROOMS};
use crate::goals::trace_refusals::REFUSED;
use crate::model::sheet::{is_full, node_rows, words_of, FOLIO};
use crate::model::trace::*;
use crate::trial::operation::{STEPS, TRACE};
use crate::trial::request::{Expected, Request};

const QUESTIONS: [&str; 26] = [
    "open, one minute after its start",
    "open, in the minute of a second start",
    "open, in the minute of a second start and the last of the first",
    "open, by two starts",
    "open, by the second start alone",
    "open, in the last minute before its timeout",
    "open, by a start after an end",
    "open, though starts and timeout make more than 4294967295",
    "open, with a timeout of 4294967295",
    "open, at minute 4294967295",
    "open, folio 0",
    "open, folio 4294967295",
    "open, a folio that the sheet does not have",
    "open, office 2 does not know and office 1 answers",
    "closed, in the minute of its start",
    "closed, in the minute of two starts",
    "closed, in its timeout's own minute",
    "closed, a minute after its timeout's own",
    "closed, with a timeout of 0",
    "closed, with a timeout of 1 a minute after its start",
    "closed, by an end in the same minute",
    "closed, by an end in an earlier minute",
    "closed, by an end after two starts",
    "closed, in the minute of a start after an end",
    "closed, never started",
    "closed, while another folio is open",
];

const STARTS: [&str; 15] = [
    "again in the same minute",
    "again in a later minute",
    "again in the last minute before its timeout",
    "again in its timeout's own minute",
    "again after an end in the same minute",
    "again after an end in an earlier minute",
    "of folio 0",
    "of a folio that the sheet does not have",
    "at minute 0",
    "at minute 4294967295",
    "the 32nd folio",
    "again while 32 folios are held",
    "the 32nd folio after an end of another",
    "the 32nd folio in the timeout's own minute of another",
    "the 33rd folio of a minute, with a timeout of 0",
];

const ENDS: [&str; 6] = [
    "of an open folio",
    "of a folio in the minute of its start",
    "of a folio with two starts",
    "of a folio that has expired",
    "of a folio that was never started",
    "while 32 folios are held",
];

pub fn needed(operation: u32) -> Vec<String> {
    let mut goals = Vec::new();
    for number in (1..=17).map(|it| format!("the sheet's {it}")).chain([no_office()]) {
        goals.extend(["", ", and a bad row", ", and no room"].map(|more| number.clone() + more));
    }
    goals.extend(["no rows", "no rows and no room"].map(String::from));
    goals.extend(["no rows of a bad sheet", "no rows of one office"].map(String::from));
    for open in [true, false] {
        for second in 0..=3 {
            goals.extend((0..=3).map(|first| answer_goal(open, second, first)));
        }
        for name in NAMES {
            goals.extend((1..=2).map(|office| unknown_goal(open, name, office)));
        }
    }
    goals.extend(QUESTIONS.map(|goal| format!("question {goal}")));
    goals.extend(STARTS.map(|goal| format!("start, {goal}")));
    goals.extend(ENDS.map(|goal| format!("end, {goal}")));
    goals.extend(REFUSED.map(|goal| format!("refused, {goal}")));
    goals.extend([0, 1, u32::MAX].map(timeout_goal));
    goals.extend(ROOMS.map(String::from));
    goals.extend(["a full sheet", "over 500 rows", "no question"].map(String::from));
    goals.push(match operation {
        TRACE => "a bad row and no room for the answers before it".to_string(),
        _ => "a bad row and less room than answers before it".to_string(),
    });
    goals
}

const NAMES: [&str; 3] = ["person", "deed", "folio"];

fn no_office() -> String {
    "3 for want of office 2".to_string()
}

fn answer_goal(open: bool, second: u32, first: u32) -> String {
    format!("{}, office 2 says {second} and office 1 {first}", word(open))
}

fn unknown_goal(open: bool, name: &str, office: usize) -> String {
    format!("{}, a {name} that office {office} does not know", word(open))
}

fn word(open: bool) -> &'static str {
    if open {
        "open"
    } else {
        "closed"
    }
}

fn timeout_goal(timeout: u32) -> String {
    format!("a start and a question with a timeout of {timeout}")
}

/// The goals one case meets, from what is expected of it.
pub fn met(request: &Request, expected: &Expected) -> Vec<String> {
    let (sheet, rows) = (words_of(&request.first), words_of(&request.second));
    let (timeout, room) = (request.numbers[0], request.out_len);
    let refused = expected.reply[1] == 1;
    let desk = Desk::of(&sheet, timeout);
    let Ok(desk) = desk else {
        let [number, ..] = desk.err().map_or([0; 2], |it| [it.number, it.row]);
        return of_bad_sheet(request, &sheet, &rows, number, refused);
    };
    let steps = step_by_step(&sheet, timeout, &rows);
    let watched = Watched { desk, folios: folios(&sheet) };
    let mut goals = Vec::new();
    for (at, row) in steps.taken.iter().enumerate() {
        goals.extend(watched.of_row(&steps.taken[..at], *row));
    }
    goals.extend(watched.of_refused(&steps, &rows));
    goals.extend(of_whole(&steps, timeout, is_full(&sheet)));
    goals.extend(of_room(request.operation, &steps, room));
    goals
}

fn folios(sheet: &[u32]) -> BTreeSet<u32> {
    node_rows(sheet).iter().filter(|row| row[0] == FOLIO).map(|row| row[1]).collect()
}

/// By step and without a row nothing looks at the sheet.
fn of_bad_sheet(
    request: &Request,
    sheet: &[u32],
    rows: &[u32],
    number: u32,
    refused: bool,
) -> Vec<String> {
    let lacks = number == 3 && sheet.get(1) == Some(&1);
    let name = if lacks { no_office() } else { format!("the sheet's {number}") };
    let bad =
        rows.chunks(TRACE_WIDTH).any(|row| !TraceRow::of(row).is_some_and(|it| it.is_right()));
    let mut goals = Vec::new();
    if refused {
        goals.push(name.clone());
        goals.extend(bad.then(|| format!("{name}, and a bad row")));
        goals.extend((request.out_len == 0).then(|| format!("{name}, and no room")));
    }
    let none = if lacks { "no rows of one office" } else { "no rows of a bad sheet" };
    goals.extend(rows.is_empty().then(|| none.to_string()));
    goals
}

fn of_whole(steps: &Steps, timeout: u32, full: bool) -> Vec<String> {
    let some = |kind: u32| steps.taken.iter().any(|row| row.kind == kind);
    let mut goals = Vec::new();
    goals.extend((some(START) && some(QUESTION)).then(|| timeout_goal(timeout)));
    goals.extend(full.then(|| "a full sheet".to_string()));
    goals.extend((steps.taken.len() > 500).then(|| "over 500 rows".to_string()));
    goals
}

/// What a step answers has no room, but the trial's output has.
fn of_room(operation: u32, steps: &Steps, room: usize) -> Vec<String> {
    let length = steps.answers.len();
    let mut goals = Vec::new();
    if steps.refusal.is_some() {
        let short = room < length;
        goals.extend(
            (short && operation == TRACE)
                .then_some("a bad row and no room for the answers before it"),
        );
        goals.extend(
            (short && operation == STEPS)
                .then_some("a bad row and less room than answers before it"),
        );
    } else if steps.taken.is_empty() {
        goals.push("no rows");
        goals.extend((room == 0).then_some("no rows and no room"));
    } else if length == 0 {
        goals.push("no question");
    } else {
        goals.extend(room_goal(length, room));
    }
    goals.into_iter().map(String::from).collect()
}

/// A desk, and the folios of its sheet.
pub struct Watched {
    pub desk: Desk,
    folios: BTreeSet<u32>,
}

impl Watched {
    fn of_row(&self, before: &[TraceRow], row: TraceRow) -> Vec<String> {
        match row.kind {
            START => chosen(&STARTS, &self.of_start(before, row), "start"),
            END => chosen(&ENDS, &self.of_end(before, row), "end"),
            _ => self.of_question(before, row),
        }
    }

    /// Minutes of all its starts, ended or expired or not.
    pub fn starts(&self, before: &[TraceRow], folio: u32) -> Vec<u32> {
        let own = before.iter().filter(|row| row.kind == START && row.folio == folio);
        own.map(|row| row.minute).collect()
    }

    /// Its latest end, as its place among the rows and its minute.
    pub fn end(&self, before: &[TraceRow], folio: u32) -> Option<(usize, u32)> {
        let at = before.iter().rposition(|row| row.kind == END && row.folio == folio)?;
        Some((at, before[at].minute))
    }

    /// The minute at which a start is no longer held.
    pub fn expiry(&self, start: u32) -> u64 {
        u64::from(start) + u64::from(self.desk.timeout)
    }

    fn of_question(&self, before: &[TraceRow], row: TraceRow) -> Vec<String> {
        let open = is_open(before, row.folio, row.minute, self.desk.timeout);
        let [first, second] = [1, 2].map(|office| self.desk.says(office, row));
        let mut goals = vec![answer_goal(open, second, first)];
        for (office, own) in (1..).zip(&self.desk.offices) {
            let known = [
                own.persons.contains(&row.person),
                own.knows_deed(row.deed),
                own.folios.contains(&row.folio),
            ];
            let unknown = NAMES.into_iter().zip(known).filter(|(_, known)| !known);
            goals.extend(unknown.map(|(name, _)| unknown_goal(open, name, office)));
        }
        let met: Vec<bool> = match open {
            true => self.of_open(before, row).into_iter().chain([false; 12]).collect(),
            false => [false; 14].into_iter().chain(self.of_closed(before, row)).collect(),
        };
        goals.extend(chosen(&QUESTIONS, &met, "question").iter().map(|it| it.replacen(',', "", 1)));
        goals
    }

    /// In the order of the first goals of a question.
    fn of_open(&self, before: &[TraceRow], row: TraceRow) -> [bool; 14] {
        let (minute, folio, timeout) = (row.minute, row.folio, self.desk.timeout);
        let starts = holding(before, folio, minute, timeout);
        let opening: Vec<u32> = starts.iter().copied().filter(|&it| it < minute).collect();
        let last = |start: &u32| self.expiry(*start) == u64::from(minute) + 1;
        let distinct: BTreeSet<&u32> = opening.iter().collect();
        let expired = self.starts(before, folio).iter().any(|it| !lasts(*it, timeout, minute));
        let answered = self.desk.says(2, row) == 0 && self.desk.says(1, row) != 0;
        [
            opening.contains(&(minute - 1)),
            starts.contains(&minute),
            starts.contains(&minute) && opening.iter().all(last),
            distinct.len() > 1,
            expired && distinct.len() == 1,
            starts.iter().all(last),
            self.end(before, folio).is_some(),
            opening.iter().all(|start| self.expiry(*start) > u64::from(u32::MAX)),
            timeout == u32::MAX,
            minute == u32::MAX,
            folio == 0,
            folio == u32::MAX,
            !self.folios.contains(&folio),
            answered,
        ]
    }

    /// In the order of the others.
    fn of_closed(&self, before: &[TraceRow], row: TraceRow) -> [bool; 12] {
        let (minute, folio, timeout) = (row.minute, row.folio, self.desk.timeout);
        let starts = holding(before, folio, minute, timeout);
        let all = self.starts(before, folio);
        let end = self.end(before, folio);
        let (ended, later) = before.split_at(end.map_or(0, |(at, _)| at));
        let expires = |after: u64| {
            let own = later.iter().filter(|it| it.kind == START && it.folio == folio);
            own.map(|it| it.minute)
                .any(|it| timeout > 0 && self.expiry(it) + after == u64::from(minute))
        };
        // What would be open but for the end.
        let stopped = is_open(ended, folio, minute, timeout);
        let two: BTreeSet<u32> = holding(ended, folio, minute, timeout).into_iter().collect();
        let other = |it: &TraceRow| is_open(before, it.folio, minute, timeout);
        [
            starts.len() == 1,
            starts.len() > 1,
            starts.is_empty() && expires(0),
            starts.is_empty() && expires(1),
            timeout == 0 && all.iter().any(|&it| it < minute),
            timeout == 1 && minute > 0 && all.contains(&(minute - 1)),
            stopped && starts.is_empty() && end.is_some_and(|(_, at)| at == minute),
            stopped && starts.is_empty() && end.is_some_and(|(_, at)| at < minute),
            stopped && starts.is_empty() && two.len() > 1,
            stopped && !starts.is_empty(),
            all.is_empty(),
            before.iter().any(other),
        ]
    }

    fn of_start(&self, before: &[TraceRow], row: TraceRow) -> [bool; 15] {
        let (minute, folio, timeout) = (row.minute, row.folio, self.desk.timeout);
        let starts = holding(before, folio, minute, timeout);
        let end = self.end(before, folio);
        let (count, full) = self.counted(before, row);
        let fresh = count == MOST_HELD && starts.is_empty();
        let expired =
            |it: &TraceRow| it.kind == START && self.expiry(it.minute) == u64::from(minute);
        let started: BTreeSet<u32> = before
            .iter()
            .filter(|it| it.kind == START && it.minute == minute)
            .map(|it| it.folio)
            .collect();
        [
            starts.contains(&minute),
            starts.iter().any(|&it| it < minute) && !starts.contains(&minute),
            !starts.is_empty() && starts.iter().all(|it| self.expiry(*it) == u64::from(minute) + 1),
            starts.is_empty() && before.iter().any(|it| it.folio == folio && expired(it)),
            end.is_some_and(|(_, at)| at == minute),
            end.is_some_and(|(_, at)| at < minute),
            folio == 0,
            !self.folios.contains(&folio),
            minute == 0,
            minute == u32::MAX,
            fresh,
            full && !starts.is_empty(),
            fresh && before.iter().any(|it| it.kind == END && it.folio != folio),
            fresh && before.iter().any(|it| it.folio != folio && expired(it)),
            timeout == 0 && started.len() >= MOST_HELD && !started.contains(&folio),
        ]
    }

    /// How many folios are held with the row, and whether there were 32 before it.
    fn counted(&self, before: &[TraceRow], row: TraceRow) -> (usize, bool) {
        let held = |rows: &[TraceRow]| held(rows, row.minute, self.desk.timeout).len();
        (held(&[before, &[row]].concat()), held(before) == MOST_HELD)
    }

    fn of_end(&self, before: &[TraceRow], row: TraceRow) -> [bool; 6] {
        let (minute, folio, timeout) = (row.minute, row.folio, self.desk.timeout);
        let starts: BTreeSet<u32> = holding(before, folio, minute, timeout).into_iter().collect();
        let all = self.starts(before, folio);
        [
            is_open(before, folio, minute, timeout),
            !starts.is_empty() && starts.iter().all(|&it| it == minute),
            starts.len() > 1,
            !all.is_empty() && all.iter().all(|it| !lasts(*it, timeout, minute)),
            all.is_empty(),
            self.counted(before, row).1,
        ]
    }
}
