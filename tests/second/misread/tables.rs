//! Wrong versions of one row on a lent table. All of them do what is right but for one slip.

use crate::model::answer::{insist, refusal, Answer, Refusal};
use crate::model::trace::{lasts, Desk, TraceRow, END, QUESTION, START, TRACE_WIDTH};
use crate::model::watch::{Emergency, Watch};
use crate::trial::lending::{Lending, Returned};

#[derive(Clone, Copy, Debug, PartialEq)]
pub enum Slip {
    Right,
    RefusedMovesLast,
    RefusedClears,
    TwiceNever,
    TwiceIfHeld,
    TwiceOfRow,
    TwiceCountsEmpty,
    TwiceBeforeOffice,
    TwiceAfterRow,
    LongRowTaken,
    ShortRowAfterMinute,
    MinuteNotCompared,
    MinuteEqualRefused,
    MarkOneAlone,
    FolioZeroEmpty,
    JunkStays,
    ExpiredStay,
    ExpiryOfOwnAlone,
    ExpiryByEarlier,
    ExpiryByBoth,
    TimeoutsMinuteHeld,
    SumWraps,
    LastFreePlace,
    CrowdBeforeClearing,
    NewMarkIsFolio,
    AgainMarksOne,
    AgainForgetsEarlier,
    AgainKeepsLatest,
    AgainInSameMinute,
    AgainGoesDown,
    EndLeavesWords,
    EndOfEverything,
    OpenByLatestAlone,
    OpenByEarlierAlone,
    OpenBeforeClearing,
    OwnMinuteOpen,
    LastOfStartsAlone,
    LastStays,
    FirstOfficeFirst,
    CountNotTold,
}

use Slip::*;

pub const WRONG: [(&str, Slip); 39] = [
    ("a refused row moves the last minute", RefusedMovesLast),
    ("a refused row clears what has expired", RefusedClears),
    ("a name twice is taken", TwiceNever),
    ("59 for two that are held alone", TwiceIfHeld),
    ("59 for the row's folio alone", TwiceOfRow),
    ("59 for the words of an empty place", TwiceCountsEmpty),
    ("59 before 3", TwiceBeforeOffice),
    ("59 after the row is read", TwiceAfterRow),
    ("a row of more than five words is taken", LongRowTaken),
    ("50 before 54 for a row of other than five words", ShortRowAfterMinute),
    ("a minute below the last is taken", MinuteNotCompared),
    ("50 for the last minute", MinuteEqualRefused),
    ("a place of another mark than 1 is empty", MarkOneAlone),
    ("a place of folio 0 is empty", FolioZeroEmpty),
    ("words of an empty place stay", JunkStays),
    ("expired places stay", ExpiredStay),
    ("the row's own folio expires alone", ExpiryOfOwnAlone),
    ("a place expires by its earlier minute", ExpiryByEarlier),
    ("a place is held by either minute", ExpiryByBoth),
    ("the timeout's own minute is still held", TimeoutsMinuteHeld),
    ("a sum of minutes wraps", SumWraps),
    ("the last empty place is taken", LastFreePlace),
    ("51 where no place was free before", CrowdBeforeClearing),
    ("the mark of a new place is its folio", NewMarkIsFolio),
    ("a start again marks 1", AgainMarksOne),
    ("one start a place", AgainForgetsEarlier),
    ("a start again changes nothing", AgainKeepsLatest),
    ("a start again in the same minute moves the minutes", AgainInSameMinute),
    ("a start again below the latest moves the minutes", AgainGoesDown),
    ("an end leaves the place's words", EndLeavesWords),
    ("an end ends every place", EndOfEverything),
    ("open by the latest minute alone", OpenByLatestAlone),
    ("open by the earlier minute alone", OpenByEarlierAlone),
    ("open by a place that has expired", OpenBeforeClearing),
    ("a start's own minute is open", OwnMinuteOpen),
    ("starts alone move the last minute", LastOfStartsAlone),
    ("the last minute stays", LastStays),
    ("office 1 before office 2", FirstOfficeFirst),
    ("the offices asked are not counted", CountNotTold),
];

/// What a driver with this slip would return.
pub fn read(lending: &Lending, slip: Slip) -> Returned {
    let reader = Reader { lending, slip };
    let row = TraceRow::of(&lending.row);
    match (reader.taken(), row) {
        (Ok((answer, watch)), _) => Returned::of(Ok(answer), watch),
        (Err(refusal), Some(row)) if refusal.sheet == 0 => {
            let watch = match slip {
                RefusedMovesLast => Watch { last: row.minute, ..lending.watch.clone() },
                RefusedClears => reader.cleared(row),
                _ => lending.watch.clone(),
            };
            Returned::of(Err(refusal), watch)
        }
        (Err(refusal), _) => Returned::of(Err(refusal), lending.watch.clone()),
    }
}

struct Reader<'a> {
    lending: &'a Lending,
    slip: Slip,
}

impl Reader<'_> {
    fn is_used(&self, place: &Emergency) -> bool {
        match self.slip {
            MarkOneAlone => place.mark == 1,
            FolioZeroEmpty => place.mark != 0 && place.folio != 0,
            _ => place.mark != 0,
        }
    }

    fn lasts(&self, start: u32, minute: u32) -> bool {
        let timeout = self.lending.timeout;
        match self.slip {
            TimeoutsMinuteHeld => {
                lasts(start, timeout, minute) || lasts(start, timeout, minute.saturating_sub(1))
            }
            SumWraps => minute < start.wrapping_add(timeout),
            _ => lasts(start, timeout, minute),
        }
    }

    fn is_held(&self, place: &Emergency, row: TraceRow) -> bool {
        let [latest, earlier] =
            [place.latest, place.earlier].map(|start| self.lasts(start, row.minute));
        match self.slip {
            ExpiredStay => true,
            ExpiryOfOwnAlone => latest || place.folio != row.folio,
            ExpiryByEarlier => earlier,
            ExpiryByBoth => latest || earlier,
            _ => latest,
        }
    }

    fn taken(&self) -> Result<(Answer, Watch), Refusal> {
        let Lending { watch, sheet, timeout, row } = self.lending;
        let desk = Desk::of(sheet, *timeout);
        let early = self.slip == TwiceBeforeOffice;
        if early && desk.as_ref().err().is_some_and(|it| it.number == 3) {
            insist(!self.is_twice(row), 59)?;
        }
        let desk = desk?;
        let after = self.slip == TwiceAfterRow;
        insist(after || !self.is_twice(row), 59)?;
        let row = self.row(row)?;
        let lower = match self.slip {
            MinuteNotCompared => false,
            MinuteEqualRefused => row.minute <= watch.last,
            _ => row.minute < watch.last,
        };
        insist(!lower, 50)?;
        insist(row.is_right(), 54)?;
        insist(!after || !self.is_twice(&row.words()), 59)?;
        self.done(&desk, row)
    }

    fn row(&self, words: &[u32]) -> Result<TraceRow, Refusal> {
        let long = self.slip == LongRowTaken && words.len() > TRACE_WIDTH;
        let words = if long { &words[..TRACE_WIDTH] } else { words };
        let lower = words.first().is_some_and(|&minute| minute < self.lending.watch.last);
        let number = if self.slip == ShortRowAfterMinute && lower { 50 } else { 54 };
        TraceRow::of(words).ok_or(refusal(number))
    }

    fn is_twice(&self, row: &[u32]) -> bool {
        let (minute, folio) = (row.first().copied(), row.get(2).copied());
        let counts = |place: &&Emergency| match self.slip {
            TwiceNever => false,
            TwiceIfHeld => {
                let held = minute.is_none_or(|minute| self.lasts(place.latest, minute));
                self.is_used(place) && held
            }
            TwiceOfRow => self.is_used(place) && folio == Some(place.folio),
            TwiceCountsEmpty => **place != Emergency::default(),
            _ => self.is_used(place),
        };
        let mut folios: Vec<u32> =
            self.lending.watch.places.iter().filter(counts).map(|place| place.folio).collect();
        folios.sort_unstable();
        folios.windows(2).any(|two| two[0] == two[1])
    }

    fn cleared(&self, row: TraceRow) -> Watch {
        let mut watch = self.lending.watch.clone();
        for place in &mut watch.places {
            let own = row.kind == END && (place.folio == row.folio || self.slip == EndOfEverything);
            let used = self.is_used(place);
            match (used, own, self.slip) {
                (false, _, JunkStays) => {}
                (true, true, EndLeavesWords) => place.mark = 0,
                (true, false, _) if self.is_held(place, row) => {}
                _ => *place = Emergency::default(),
            }
        }
        if self.slip != LastStays && (self.slip != LastOfStartsAlone || row.kind == START) {
            watch.last = row.minute;
        }
        watch
    }

    fn done(&self, desk: &Desk, row: TraceRow) -> Result<(Answer, Watch), Refusal> {
        let cleared = self.cleared(row);
        match row.kind {
            START => Ok((Answer::default(), self.started(cleared, row)?)),
            QUESTION => Ok((self.told(desk, &cleared, row), cleared)),
            _ => Ok((Answer::default(), cleared)),
        }
    }

    fn started(&self, mut watch: Watch, row: TraceRow) -> Result<Watch, Refusal> {
        let (minute, folio) = (row.minute, row.folio);
        let named = |place: &&mut Emergency| self.is_used(place) && place.folio == folio;
        if let Some(own) = watch.places.iter_mut().find(named) {
            self.again(own, minute);
            return Ok(watch);
        }
        let before = self.lending.watch.places.iter().all(|place| self.is_used(place));
        insist(self.slip != CrowdBeforeClearing || !before, 51)?;
        let empty = |place: &Emergency| !self.is_used(place);
        let at = match self.slip {
            LastFreePlace => watch.places.iter().rposition(empty),
            _ => watch.places.iter().position(empty),
        };
        let mark = if self.slip == NewMarkIsFolio { folio.max(1) } else { 1 };
        let new = Emergency { mark, folio, latest: minute, earlier: minute };
        watch.places[at.ok_or(refusal(51))?] = new;
        Ok(watch)
    }

    fn again(&self, own: &mut Emergency, minute: u32) {
        let moves = match self.slip {
            AgainKeepsLatest => false,
            AgainInSameMinute => minute >= own.latest,
            AgainGoesDown => minute != own.latest,
            _ => minute > own.latest,
        };
        if moves {
            own.earlier = if self.slip == AgainForgetsEarlier { minute } else { own.latest };
            own.latest = minute;
        }
        if self.slip == AgainMarksOne {
            own.mark = 1;
        }
    }

    fn told(&self, desk: &Desk, cleared: &Watch, row: TraceRow) -> Answer {
        let opens = |start: u32| {
            let before = start < row.minute || self.slip == OwnMinuteOpen && start == row.minute;
            before && self.lasts(start, row.minute)
        };
        let open = |place: &Emergency| match self.slip {
            OpenByLatestAlone => opens(place.latest),
            OpenByEarlierAlone => opens(place.earlier),
            _ => opens(place.latest) || opens(place.earlier),
        };
        let looked = if self.slip == OpenBeforeClearing { &self.lending.watch } else { cleared };
        let named = |place: &&Emergency| self.is_used(place) && place.folio == row.folio;
        let is_open = looked.places.iter().filter(named).any(open);
        let mut answer = desk.told(row, is_open);
        let first = desk.says(1, row);
        if self.slip == FirstOfficeFirst && first != 0 {
            answer.value = first;
        }
        if self.slip == CountNotTold {
            answer.count = 0;
        }
        answer
    }
}
