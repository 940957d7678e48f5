//! The duty desk by the request's own words: what a row means is looked for in the whole
//! list of the rows before it, each time anew. There is no table here; that is `watch`.

use std::collections::BTreeSet;

use crate::model::answer::{at_office, fitting, insist, refusal, sound, Answer, Refusal};
use crate::model::office::{Ask, Office};
use crate::model::sheet::office_count;

/// Words of a row of a trace.
pub const TRACE_WIDTH: usize = 5;

pub const START: u32 = 1;
pub const END: u32 = 2;
pub const QUESTION: u32 = 3;

/// Folios that may be held at one minute.
pub const MOST_HELD: usize = 32;

/// A row that is not cut short.
#[derive(Clone, Copy, Debug, PartialEq)]
pub struct TraceRow {
    pub minute: u32,
    pub kind: u32,
    pub folio: u32,
    pub person: u32,
    pub deed: u32,
}

impl TraceRow {
    /// Nothing of words that are not five.
    pub fn of(words: &[u32]) -> Option<TraceRow> {
        let &[minute, kind, folio, person, deed] = words else { return None };
        Some(TraceRow { minute, kind, folio, person, deed })
    }

    pub fn words(self) -> [u32; TRACE_WIDTH] {
        [self.minute, self.kind, self.folio, self.person, self.deed]
    }

    /// One of the three kinds, and no spare word on a start or an end.
    pub fn is_right(self) -> bool {
        match self.kind {
            START | END => self.person == 0 && self.deed == 0,
            kind => kind == QUESTION,
        }
    }

    fn is(self, kind: u32, folio: u32) -> bool {
        self.kind == kind && self.folio == folio
    }
}

/// Whether the minute is below start plus timeout, as whole numbers.
pub fn lasts(start: u32, timeout: u32, minute: u32) -> bool {
    u64::from(minute) < u64::from(start) + u64::from(timeout)
}

/// The minutes of the start rows that hold the folio at this minute, after all these rows:
/// none has a later end row for the folio.
pub fn holding(rows: &[TraceRow], folio: u32, minute: u32, timeout: u32) -> Vec<u32> {
    let ended = rows.iter().rposition(|row| row.is(END, folio));
    let later = &rows[ended.map_or(0, |at| at + 1)..];
    let starts = later.iter().filter(|row| row.is(START, folio)).map(|row| row.minute);
    starts.filter(|&start| lasts(start, timeout, minute)).collect()
}

/// By a start row from a minute before this one.
pub fn is_open(rows: &[TraceRow], folio: u32, minute: u32, timeout: u32) -> bool {
    holding(rows, folio, minute, timeout).iter().any(|&start| start < minute)
}

/// Every folio that some start row holds at this minute, after all these rows. They are
/// read from the last to the first, so that each end row is met before what it ends.
pub fn held(rows: &[TraceRow], minute: u32, timeout: u32) -> BTreeSet<u32> {
    let (mut ended, mut held) = (BTreeSet::new(), BTreeSet::new());
    for row in rows.iter().rev() {
        if row.kind == END {
            ended.insert(row.folio);
        }
        let holds = row.kind == START && !ended.contains(&row.folio);
        if holds && lasts(row.minute, timeout, minute) {
            held.insert(row.folio);
        }
    }
    held
}

/// Both offices of a sheet that a trace can be put to, and the timeout.
pub struct Desk {
    pub offices: [Office; 2],
    pub timeout: u32,
}

impl Desk {
    /// 3 comes after the whole check, at the place of the sheet's own 3.
    pub fn of(words: &[u32], timeout: u32) -> Result<Desk, Refusal> {
        sound(words, 1)?;
        match office_count(words) {
            1 => Err(Refusal { number: 3, sheet: 1, row: 0 }),
            _ => Ok(Desk { offices: [1, 2].map(|office| Office::of(words, office)), timeout }),
        }
    }

    /// What an office answers; an identity that it does not know is undetermined.
    pub fn says(&self, office: usize, row: TraceRow) -> u32 {
        let TraceRow { person, deed, folio, .. } = row;
        let said = at_office(&self.offices[office - 1], &Ask { person, deed, folio });
        said.map_or(0, |answer| answer.value)
    }

    /// Office 2, then office 1, or office 1 alone; and how many are asked.
    pub fn told(&self, row: TraceRow, open: bool) -> Answer {
        let first = if open { self.says(2, row) } else { 0 };
        let value = if first == 0 { self.says(1, row) } else { first };
        Answer { value, count: 1 + u32::from(open), ..Answer::default() }
    }

    /// What comes of one row more after these, none of which was refused.
    pub fn next(&self, before: &[TraceRow], words: &[u32]) -> Result<Answer, Refusal> {
        let row = TraceRow::of(words).ok_or(refusal(54))?;
        let last = before.last().map_or(0, |row| row.minute);
        insist(row.minute >= last, 50)?;
        insist(row.is_right(), 54)?;
        if row.kind == QUESTION {
            let open = is_open(before, row.folio, row.minute, self.timeout);
            return Ok(self.told(row, open));
        }
        let after = [before, &[row]].concat();
        let many = row.kind == START && held(&after, row.minute, self.timeout).len() > MOST_HELD;
        insist(!many, 51)?;
        Ok(Answer::default())
    }
}

/// The rows of a trace that were taken one after the other, the answers to the questions
/// among them, and the refusal of the row after them.
#[derive(Clone, Debug, Default, PartialEq)]
pub struct Steps {
    pub taken: Vec<TraceRow>,
    pub answers: Vec<u32>,
    pub refusal: Option<Refusal>,
}

impl Steps {
    fn of(desk: &Desk, rows: &[u32]) -> Steps {
        let mut steps = Steps::default();
        for words in rows.chunks(TRACE_WIDTH) {
            match desk.next(&steps.taken, words) {
                Ok(answer) => {
                    steps.answers.extend((answer.count > 0).then_some(answer.value));
                    steps.taken.extend(TraceRow::of(words));
                }
                Err(refusal) => {
                    steps.refusal = Some(refusal);
                    break;
                }
            }
        }
        steps
    }
}

/// A whole trace: a row that is refused comes before a room that is too short.
pub fn trace(words: &[u32], timeout: u32, rows: &[u32], room: usize) -> Result<Answer, Refusal> {
    let steps = Steps::of(&Desk::of(words, timeout)?, rows);
    match steps.refusal {
        Some(refusal) => Err(refusal),
        None => fitting(steps.answers, room),
    }
}

/// The same rows one at a time. Without a row there is no step, and nothing looks at the
/// sheet.
pub fn step_by_step(words: &[u32], timeout: u32, rows: &[u32]) -> Steps {
    if rows.is_empty() {
        return Steps::default();
    }
    match Desk::of(words, timeout) {
        Ok(desk) => Steps::of(&desk, rows),
        Err(refusal) => Steps { refusal: Some(refusal), ..Steps::default() },
    }
}
