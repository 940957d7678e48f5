//! By which row a trace of the duty desk must have been refused, goal by goal.

use crate::goals::rooms::chosen;
use crate::goals::traces::Watched;
use crate::model::trace::*;

pub const REFUSED: [&str; 31] = [
    "50, one minute lower",
    "50, minute 0",
    "50, a start",
    "50, an end",
    "50, a question",
    "50, lower than a question's minute",
    "50, lower than an end's minute",
    "50, and 54 too",
    "50, and 51 too",
    "54, kind 0",
    "54, kind 4",
    "54, kind 4294967295",
    "54, another unknown kind",
    "54, a start's person",
    "54, a start's deed",
    "54, an end's person",
    "54, an end's deed",
    "54, cut to 1 word",
    "54, cut to 2 words",
    "54, cut to 3 words",
    "54, cut to 4 words",
    "54, cut short and its minute lower",
    "54, and 51 too",
    "51, all in one minute",
    "51, in the minute before another expires",
    "51, since a start again holds another",
    "51, since an end was followed by a start again",
    "51, though starts and timeout make more than 4294967295",
    "the first row",
    "a row with rows behind it",
    "a row after answers",
];

impl Watched {
    pub fn of_refused(&self, steps: &Steps, rows: &[u32]) -> Vec<String> {
        let Some(refusal) = &steps.refusal else { return Vec::new() };
        let at = steps.taken.len();
        let words: Vec<u32> = rows.chunks(TRACE_WIDTH).nth(at).unwrap_or_default().to_vec();
        let met: Vec<bool> = self
            .of_wrong_row(&steps.taken, &words)
            .into_iter()
            .chain([at == 0, (at + 1) * TRACE_WIDTH < rows.len(), !steps.answers.is_empty()])
            .collect();
        let number = refusal.number.to_string();
        let own = |goal: &String| {
            let first = goal.split(", ").nth(1).unwrap_or_default();
            first == number || first.starts_with("the") || first.starts_with("a row")
        };
        chosen(&REFUSED, &met, "refused").into_iter().filter(own).collect()
    }

    /// Of a row that is refused by the number with which its goal begins.
    fn of_wrong_row(&self, before: &[TraceRow], words: &[u32]) -> Vec<bool> {
        let cut = words.len() < TRACE_WIDTH;
        let mut whole = words.to_vec();
        whole.resize(TRACE_WIDTH, 0);
        let row = TraceRow::of(&whole).expect("five words are a row");
        let TraceRow { minute, kind, person, deed, .. } = row;
        let last = before.last().copied();
        let lower = last.is_some_and(|it| minute < it.minute);
        let of = |own: u32| last.is_some_and(|it| it.kind == own);
        let (many, crowded) = self.of_many(before, row);
        let own = [
            last.is_some_and(|it| minute + 1 == it.minute),
            minute == 0,
            kind == START,
            kind == END,
            kind == QUESTION,
            of(QUESTION),
            of(END),
            lower && !row.is_right(),
            lower && row.is_right() && many,
            !cut && kind == 0,
            !cut && kind == 4,
            !cut && kind == u32::MAX,
            !cut && kind > 4 && kind != u32::MAX,
            !cut && kind == START && person != 0,
            !cut && kind == START && deed != 0,
            !cut && kind == END && person != 0,
            !cut && kind == END && deed != 0,
            words.len() == 1,
            words.len() == 2,
            words.len() == 3,
            words.len() == 4,
            cut && lower,
            !cut && many,
        ];
        own.into_iter().chain(crowded).collect()
    }

    /// Whether a start makes a folio too many, and of such a one: all in one minute; the
    /// minute before another expires; another is held by a start again alone, or since an
    /// end; every sum is above the range.
    fn of_many(&self, before: &[TraceRow], row: TraceRow) -> (bool, [bool; 5]) {
        let (minute, timeout) = (row.minute, self.desk.timeout);
        let after = [before, &[row]].concat();
        let held = held(&after, minute, timeout);
        let many = row.kind == START && held.len() > MOST_HELD;
        let starts = |folio: u32| holding(&after, folio, minute, timeout);
        let soon = |it: &u32| self.expiry(*it) == u64::from(minute) + 1;
        let again = |&folio: &u32| {
            let gone = |it: &u32| !lasts(*it, timeout, minute);
            self.starts(before, folio).iter().any(gone)
        };
        let above =
            |&folio: &u32| starts(folio).iter().all(|it| self.expiry(*it) > u64::from(u32::MAX));
        let goals = [
            held.iter().all(|&folio| starts(folio).contains(&minute)),
            held.iter().any(|&folio| starts(folio).iter().all(soon)),
            held.iter().any(again),
            held.iter().any(|&folio| self.end(before, folio).is_some()),
            held.iter().all(above),
        ];
        (many, goals.map(|goal| many && goal))
    }
}
