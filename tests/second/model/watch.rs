//! The lent table of the duty desk, and what one row makes of it: of every table that
//! someone could make up, whether rows could have led to it or not. What a table means is
//! `trace`, and the two are compared.

use crate::model::answer::{insist, refusal, Answer, Refusal};
use crate::model::trace::{lasts, Desk, TraceRow, END, QUESTION, START};

/// Places of a table, and words of a table.
pub const PLACES: usize = 32;
pub const WATCH_WORDS: usize = 1 + 4 * PLACES;

/// One place: empty where the mark is 0.
#[derive(Clone, Copy, Debug, Default, PartialEq)]
pub struct Emergency {
    pub mark: u32,
    pub folio: u32,
    pub latest: u32,
    pub earlier: u32,
}

#[derive(Clone, Debug, Default, PartialEq)]
pub struct Watch {
    /// The minute of the last row.
    pub last: u32,
    pub places: [Emergency; PLACES],
}

impl Emergency {
    pub fn names(&self, folio: u32) -> bool {
        self.mark != 0 && self.folio == folio
    }

    /// Some of its two minutes is before this one and lasts until after it.
    fn is_open(&self, minute: u32, timeout: u32) -> bool {
        let opens = |start: u32| start < minute && lasts(start, timeout, minute);
        opens(self.latest) || opens(self.earlier)
    }
}

impl Watch {
    /// Of as many words as a table has.
    pub fn of(words: &[u32]) -> Watch {
        let mut watch = Watch { last: words[0], ..Watch::default() };
        for (place, four) in watch.places.iter_mut().zip(words[1..].chunks(4)) {
            *place = Emergency { mark: four[0], folio: four[1], latest: four[2], earlier: four[3] };
        }
        watch
    }

    pub fn words(&self) -> Vec<u32> {
        let place = |it: &Emergency| [it.mark, it.folio, it.latest, it.earlier];
        [self.last].into_iter().chain(self.places.iter().flat_map(place)).collect()
    }

    pub fn used(&self) -> impl Iterator<Item = &Emergency> {
        self.places.iter().filter(|place| place.mark != 0)
    }

    /// Whether some folio is named in two places, expired or not.
    pub fn names_twice(&self) -> bool {
        self.used().any(|place| self.used().filter(|it| it.names(place.folio)).count() > 1)
    }

    /// Without what has expired at the row's minute and what the row ends. All words of an
    /// empty place are 0.
    fn cleared(&self, row: TraceRow, timeout: u32) -> Watch {
        let mut watch = Watch { last: row.minute, ..self.clone() };
        for place in &mut watch.places {
            let ended = row.kind == END && place.names(row.folio);
            if place.mark == 0 || ended || !lasts(place.latest, timeout, row.minute) {
                *place = Emergency::default();
            }
        }
        watch
    }

    /// A start row, of a table that has been cleared.
    fn started(mut self, row: TraceRow) -> Result<Watch, Refusal> {
        let (folio, minute) = (row.folio, row.minute);
        if let Some(own) = self.places.iter_mut().find(|place| place.names(folio)) {
            if minute > own.latest {
                (own.earlier, own.latest) = (own.latest, minute);
            }
            return Ok(self);
        }
        let free = self.places.iter_mut().find(|place| place.mark == 0).ok_or(refusal(51))?;
        *free = Emergency { mark: 1, folio, latest: minute, earlier: minute };
        Ok(self)
    }
}

/// One row on a lent table: what comes back, and the table after, which is as it was where
/// the row is refused.
pub fn step(
    watch: &Watch,
    words: &[u32],
    timeout: u32,
    row: &[u32],
) -> (Result<Answer, Refusal>, Watch) {
    match taken(watch, words, timeout, row) {
        Ok((answer, after)) => (Ok(answer), after),
        Err(refusal) => (Err(refusal), watch.clone()),
    }
}

fn taken(
    watch: &Watch,
    words: &[u32],
    timeout: u32,
    row: &[u32],
) -> Result<(Answer, Watch), Refusal> {
    let desk = Desk::of(words, timeout)?;
    insist(!watch.names_twice(), 59)?;
    let row = TraceRow::of(row).ok_or(refusal(54))?;
    insist(row.minute >= watch.last, 50)?;
    insist(row.is_right(), 54)?;
    let cleared = watch.cleared(row, timeout);
    match row.kind {
        START => Ok((Answer::default(), cleared.started(row)?)),
        QUESTION => {
            let named = cleared.places.iter().find(|place| place.names(row.folio));
            let open = named.is_some_and(|place| place.is_open(row.minute, timeout));
            Ok((desk.told(row, open), cleared))
        }
        _ => Ok((Answer::default(), cleared)),
    }
}
