//! Wrong versions of the duty desk. All of them go through a trace row by row with a list of
//! the starts that are not ended, and differ in one slip from what is right. What a slip
//! makes of a lent table stands in `tables`.

use std::collections::BTreeSet;

use crate::model::answer::{fitting, refusal, sound, Refusal};
use crate::model::sheet::{office_count, words_of};
use crate::model::trace::*;
use crate::trial::expect::{stepped, told};
use crate::trial::operation::{STEPS, TRACE};
use crate::trial::request::{Expected, Request};

#[derive(Clone, Copy, Debug, PartialEq)]
pub enum Slip {
    Right,
    TimeoutsMinuteHeld,
    OwnMinuteOpen,
    LatestStartAlone,
    FirstStartAlone,
    EndsLatestAlone,
    EndsEveryFolio,
    EndsNothing,
    EndsEarlierMinutes,
    EndHoldsOff,
    FirstOfficeFirst,
    SecondOfficeAlone,
    AnswersFused,
    SecondOfficeAlways,
    FirstOfficeAlways,
    BothIsUndetermined,
    BanIsUndetermined,
    UnknownIsRefused,
    Most31,
    Most33,
    StartsCounted,
    ExpiredCounted,
    EndedCounted,
    RestartRefused,
    ZeroTimeoutCounted,
    SumWraps,
    SumStops,
    EqualMinuteRefused,
    LowerMinuteTaken,
    LastStartsMinute,
    UnknownKindAsks,
    UnknownKindSkipped,
    SpareWordsTaken,
    SparePersonAlone,
    QuestionsSpareWords,
    CutRowDropped,
    CutRowHas50,
    KindBeforeMinute,
    CrowdBeforeMinute,
    CrowdBeforeKind,
    FolioZeroSkipped,
    UnknownFolioRefused,
    OneOfficeTaken,
    NoOfficeAtNothing,
    RefusedAtRow,
    RefusedAtSheet,
    RoomFirst,
    ExactRoomRefused,
    WrittenUpToRefusal,
    CutToFit,
    WordForEachRow,
    RefusedRowTaken,
    StepsHaveRoom,
    StepsForgetAnswers,
    StepsOfNothingCheck,
}

use Slip::*;

/// Each with its name and the operations in which it has to be seen.
pub const WRONG: [(&str, Slip, &[u32]); 54] = [
    ("the timeout's own minute is still held", TimeoutsMinuteHeld, BOTH),
    ("a start's own minute is open", OwnMinuteOpen, BOTH),
    ("one start a place, the latest", LatestStartAlone, BOTH),
    ("one start a place, the first", FirstStartAlone, BOTH),
    ("an end ends the latest start alone", EndsLatestAlone, BOTH),
    ("an end ends every folio", EndsEveryFolio, BOTH),
    ("an end ends nothing", EndsNothing, BOTH),
    ("an end ends starts of earlier minutes alone", EndsEarlierMinutes, BOTH),
    ("after an end a folio does not open again", EndHoldsOff, BOTH),
    ("office 1 before office 2", FirstOfficeFirst, BOTH),
    ("office 2 alone while open", SecondOfficeAlone, BOTH),
    ("both offices' answers as one", AnswersFused, BOTH),
    ("office 2 first, open or not", SecondOfficeAlways, BOTH),
    ("office 1 alone, open or not", FirstOfficeAlways, BOTH),
    ("office 2's Both goes on to office 1", BothIsUndetermined, BOTH),
    ("office 2's ban goes on to office 1", BanIsUndetermined, BOTH),
    ("an unknown identity is refused", UnknownIsRefused, BOTH),
    ("51 at the 32nd folio", Most31, BOTH),
    ("51 at the 34th folio", Most33, BOTH),
    ("starts are counted, not folios", StartsCounted, BOTH),
    ("expired folios are counted", ExpiredCounted, BOTH),
    ("ended folios are counted", EndedCounted, BOTH),
    ("51 for a start again", RestartRefused, BOTH),
    ("a timeout of 0 holds its own minute", ZeroTimeoutCounted, BOTH),
    ("a sum of minutes wraps", SumWraps, BOTH),
    ("a sum of minutes stops at 4294967295", SumStops, BOTH),
    ("50 for an equal minute", EqualMinuteRefused, BOTH),
    ("a lower minute is taken", LowerMinuteTaken, BOTH),
    ("50 by the last start's minute", LastStartsMinute, BOTH),
    ("an unknown kind is a question", UnknownKindAsks, BOTH),
    ("an unknown kind is skipped", UnknownKindSkipped, BOTH),
    ("spare words are taken", SpareWordsTaken, BOTH),
    ("a spare deed is taken", SparePersonAlone, BOTH),
    ("a question's words are spare", QuestionsSpareWords, BOTH),
    ("a cut row is dropped", CutRowDropped, BOTH),
    ("a cut row may be 50", CutRowHas50, BOTH),
    ("54 before 50", KindBeforeMinute, BOTH),
    ("51 before 50", CrowdBeforeMinute, BOTH),
    ("51 before 54", CrowdBeforeKind, BOTH),
    ("folio 0 is none", FolioZeroSkipped, BOTH),
    ("23 for a start of an unknown folio", UnknownFolioRefused, BOTH),
    ("one office is enough", OneOfficeTaken, BOTH),
    ("3 at no place", NoOfficeAtNothing, BOTH),
    ("a row is refused at its place", RefusedAtRow, BOTH),
    ("a row is refused at the sheet", RefusedAtSheet, BOTH),
    ("25 before the rows", RoomFirst, &[TRACE]),
    ("an exact room is too short", ExactRoomRefused, &[TRACE]),
    ("what was answered before a refusal is written", WrittenUpToRefusal, &[TRACE]),
    ("what fits is written", CutToFit, &[TRACE]),
    ("a word for each row", WordForEachRow, BOTH),
    ("the refused row is counted", RefusedRowTaken, &[STEPS]),
    ("25 by steps", StepsHaveRoom, &[STEPS]),
    ("a refusal forgets the answers", StepsForgetAnswers, &[STEPS]),
    ("no rows, and the sheet is checked", StepsOfNothingCheck, &[STEPS]),
];

const BOTH: &[u32] = &[TRACE, STEPS];

/// What a trial with this slip would reply.
pub fn read(request: &Request, slip: Slip) -> Expected {
    let (sheet, rows) = (words_of(&request.first), words_of(&request.second));
    let (timeout, room) = (request.numbers[0], request.out_len);
    let mut steps = steps(&sheet, timeout, &rows, slip);
    if request.operation == TRACE {
        return whole(request, steps, room, slip);
    }
    if rows.is_empty() && slip != StepsOfNothingCheck {
        steps = Steps::default();
    }
    let refused = steps.refusal.is_some();
    if slip == StepsForgetAnswers && refused {
        steps.answers.clear();
    }
    let mut expected = stepped(request, &steps);
    expected.reply[3] += u32::from(slip == RefusedRowTaken && refused);
    match slip == StepsHaveRoom && !refused && steps.answers.len() > room {
        true => told(request, Err(refusal(25))),
        false => expected,
    }
}

fn whole(request: &Request, steps: Steps, room: usize, slip: Slip) -> Expected {
    let mut answers = steps.answers;
    let sheets = steps.refusal.as_ref().is_some_and(|it| it.sheet == 1);
    let short = answers.len() > room;
    if !sheets && (slip == RoomFirst && short || slip == ExactRoomRefused && answers.len() >= room)
    {
        return told(request, Err(refusal(25)));
    }
    if slip == CutToFit {
        answers.truncate(room);
    }
    let Some(refusal) = steps.refusal else { return told(request, fitting(answers, room)) };
    let mut expected = told(request, Err(refusal));
    if slip == WrittenUpToRefusal {
        let fit = answers.len().min(room);
        expected.output[..fit].copy_from_slice(&answers[..fit]);
    }
    expected
}

fn desk(sheet: &[u32], timeout: u32, slip: Slip) -> Result<Desk, Refusal> {
    sound(sheet, 1)?;
    match (office_count(sheet), slip) {
        (1, OneOfficeTaken) => {
            let office = crate::model::office::Office::of(sheet, 1);
            Ok(Desk { offices: [office.clone(), office], timeout })
        }
        (1, NoOfficeAtNothing) => Err(refusal(3)),
        _ => Desk::of(sheet, timeout),
    }
}

fn steps(sheet: &[u32], timeout: u32, rows: &[u32], slip: Slip) -> Steps {
    let mut steps = Steps::default();
    let desk = match desk(sheet, timeout, slip) {
        Ok(desk) => desk,
        Err(refusal) => return Steps { refusal: Some(refusal), ..steps },
    };
    let mut reader = Reader { desk, slip, last: 0, live: Vec::new(), ended: BTreeSet::new() };
    for (at, words) in rows.chunks(TRACE_WIDTH).enumerate() {
        if slip == CutRowDropped && words.len() < TRACE_WIDTH {
            break;
        }
        if let Some(&number) = reader.faults(words).first() {
            let (sheet, row) = match slip {
                RefusedAtRow => (0, at as u32),
                RefusedAtSheet => (1, 0),
                _ => (0, 0),
            };
            steps.refusal = Some(Refusal { number, sheet, row });
            break;
        }
        let row = TraceRow::of(words).expect("a cut row is refused");
        let answer = reader.take(row);
        steps.answers.extend(answer.or((slip == WordForEachRow).then_some(0)));
        steps.taken.push(row);
    }
    steps
}

/// The starts that are not ended, as folio and minute, and the folios that were.
struct Reader {
    desk: Desk,
    slip: Slip,
    last: u32,
    live: Vec<(u32, u32)>,
    ended: BTreeSet<u32>,
}

impl Reader {
    fn holds(&self, start: u32, minute: u32) -> bool {
        let timeout = self.desk.timeout;
        match self.slip {
            TimeoutsMinuteHeld => {
                lasts(start, timeout, minute) || lasts(start, timeout, minute.saturating_sub(1))
            }
            SumWraps => minute < start.wrapping_add(timeout),
            SumStops => minute < start.saturating_add(timeout),
            _ => lasts(start, timeout, minute),
        }
    }

    fn is_open(&self, row: TraceRow) -> bool {
        let before = |start: u32| start < row.minute || self.slip == OwnMinuteOpen;
        let opens = |&(folio, start): &(u32, u32)| {
            folio == row.folio && before(start) && self.holds(start, row.minute)
        };
        match self.slip {
            SecondOfficeAlways => true,
            FirstOfficeAlways => false,
            EndHoldsOff if self.ended.contains(&row.folio) => false,
            _ => self.live.iter().any(opens),
        }
    }

    /// Every number by which the row is refused, in their order.
    fn faults(&self, words: &[u32]) -> Vec<u32> {
        let Some(row) = TraceRow::of(words) else {
            let lower = self.slip == CutRowHas50 && words[0] < self.last;
            return vec![if lower { 50 } else { 54 }];
        };
        let lower = match self.slip {
            EqualMinuteRefused => row.minute <= self.last && self.last > 0,
            LowerMinuteTaken => false,
            _ => row.minute < self.last,
        };
        let all = [(50, lower), (54, !self.is_right(row)), (51, self.is_crowded(row))];
        let order: &[usize] = match self.slip {
            KindBeforeMinute => &[1, 0, 2],
            CrowdBeforeMinute => &[2, 0, 1],
            CrowdBeforeKind => &[0, 2, 1],
            _ => &[0, 1, 2],
        };
        let own = order.iter().map(|&at| all[at]).filter(|(_, applies)| *applies);
        own.map(|(number, _)| number).chain(self.unknown(row)).collect()
    }

    fn is_right(&self, row: TraceRow) -> bool {
        let (person, deed) = (row.person == 0, row.deed == 0);
        match (self.slip, row.kind) {
            (SpareWordsTaken, START | END) => true,
            (SparePersonAlone, START | END) => person,
            (QuestionsSpareWords, QUESTION) => person && deed,
            (UnknownKindAsks | UnknownKindSkipped, kind) if !(START..=QUESTION).contains(&kind) => {
                true
            }
            _ => row.is_right(),
        }
    }

    fn is_crowded(&self, row: TraceRow) -> bool {
        let most = match self.slip {
            Most31 => MOST_HELD - 1,
            Most33 => MOST_HELD + 1,
            _ => MOST_HELD,
        };
        let zero = self.slip == ZeroTimeoutCounted && self.desk.timeout == 0;
        let counts = |&(_, start): &(u32, u32)| {
            let held = self.holds(start, row.minute) || (zero && start == row.minute);
            held || self.slip == ExpiredCounted
        };
        let mut live = self.live.clone();
        live.push((row.folio, row.minute));
        live.retain(counts);
        let mut folios: BTreeSet<u32> = live.iter().map(|it| it.0).collect();
        if self.slip == EndedCounted {
            folios.extend(&self.ended);
        }
        let again =
            self.slip == RestartRefused && live.len() > folios.len() && folios.len() == most;
        let count = if self.slip == StartsCounted { live.len() } else { folios.len() };
        row.kind == START && (count > most || again)
    }

    /// Identities that are refused, where the slip is that.
    fn unknown(&self, row: TraceRow) -> Option<u32> {
        let known = |folio: u32| self.desk.offices.iter().any(|it| it.folios.contains(&folio));
        let office = &self.desk.offices[0];
        match (self.slip, row.kind) {
            (UnknownIsRefused, QUESTION) if !office.persons.contains(&row.person) => Some(21),
            (UnknownFolioRefused, START) if !known(row.folio) => Some(23),
            _ => None,
        }
    }

    fn take(&mut self, row: TraceRow) -> Option<u32> {
        if self.slip != LastStartsMinute || row.kind == START {
            self.last = row.minute;
        }
        match row.kind {
            START => self.start(row),
            END => self.end(row),
            kind if kind == QUESTION || self.slip == UnknownKindAsks => {
                return Some(self.answer(row));
            }
            _ => {}
        }
        None
    }

    fn start(&mut self, row: TraceRow) {
        let own = |it: &(u32, u32)| it.0 == row.folio;
        let held = |it: &(u32, u32)| own(it) && self.holds(it.1, row.minute);
        match self.slip {
            FirstStartAlone if self.live.iter().any(held) => return,
            FolioZeroSkipped if row.folio == 0 => return,
            LatestStartAlone => self.live.retain(|it| !own(it)),
            _ => {}
        }
        self.live.push((row.folio, row.minute));
    }

    fn end(&mut self, row: TraceRow) {
        self.ended.insert(row.folio);
        match self.slip {
            EndsNothing => {}
            EndsEveryFolio => self.live.clear(),
            EndsEarlierMinutes => self.live.retain(|it| it.0 != row.folio || it.1 == row.minute),
            EndsLatestAlone => {
                let latest = self.live.iter().rposition(|it| it.0 == row.folio);
                latest.map(|at| self.live.remove(at));
            }
            _ => self.live.retain(|it| it.0 != row.folio),
        }
    }

    fn answer(&self, row: TraceRow) -> u32 {
        let [first, second] = [1, 2].map(|office| self.desk.says(office, row));
        let then = |one: u32, other: u32| if one == 0 { other } else { one };
        match (self.is_open(row), self.slip) {
            (false, _) => first,
            (_, FirstOfficeFirst) => then(first, second),
            (_, SecondOfficeAlone) => second,
            (_, AnswersFused) => first | second,
            (_, BothIsUndetermined) if second == 3 => first,
            (_, BanIsUndetermined) if second == 2 => first,
            _ => then(second, first),
        }
    }
}
