//! Wrong versions of the lookup in two sheets.

use crate::misread::{wrong, Asked, Misreading, Outcome};
use crate::model::answer::{insist, refusal, sound, Answer, Refusal};
use crate::model::limits::{HEADER, NODE_WIDTH};
use crate::model::lookup::{lookup, standing, Wanted};
use crate::model::sheet::*;
use crate::trial::expect::{part, wanted};
use crate::trial::operation::LOOKUP;
use crate::trial::request::Request;

pub struct Looking {
    wanted: Wanted,
    first: Vec<u32>,
    second: Vec<u32>,
    room: usize,
}

/// The row that is found.
type Found = Result<Row, Refusal>;

const LOOKED_UP: &[u32] = &[LOOKUP];

pub const WRONG: [Misreading<Looking>; 18] = [
    wrong("prefers the second sheet", LOOKED_UP, |it| it.part(prefers_second(it))),
    wrong("looks in the first sheet alone", LOOKED_UP, |it| it.part(first_alone(it))),
    wrong("looks in the second sheet alone", LOOKED_UP, |it| it.part(second_alone(it))),
    wrong("ignores the variant", LOOKED_UP, |it| it.part(ignores_variant(it))),
    wrong("ignores the type", LOOKED_UP, |it| it.part(ignores_type(it))),
    wrong("ignores the number", LOOKED_UP, |it| it.part(ignores_number(it))),
    wrong("ignores the variant but for deeds", LOOKED_UP, |it| it.part(ignores_other_variants(it))),
    wrong("the offices of both sheets", LOOKED_UP, |it| it.part(fuses_offices(it))),
    wrong("leaves out the first row", LOOKED_UP, |it| it.part(without_first_row(it))),
    wrong("leaves out the last row", LOOKED_UP, |it| it.part(without_last_row(it))),
    wrong("the second sheet's faults first", LOOKED_UP, |it| it.part(second_checked_first(it))),
    wrong("the second sheet is not checked where the first has it", LOOKED_UP, |it| {
        it.part(second_only_if_needed(it))
    }),
    wrong("32 before the first sheet's faults", LOOKED_UP, |it| it.part(unknown_before_first(it))),
    wrong("32 before the second sheet's faults", LOOKED_UP, |it| {
        it.part(unknown_before_second(it))
    }),
    wrong("every fault is sheet 1's", LOOKED_UP, |it| it.part(always_sheet_one(it))),
    wrong("a bad type or number is refused as a row's", LOOKED_UP, |it| it.part(as_a_row(it))),
    wrong("an output too short is refused", LOOKED_UP, |it| it.part(short_refused(it))),
    wrong("counts what fits", LOOKED_UP, counted_as_fits),
];

impl Asked for Looking {
    fn of(request: &Request) -> Option<Looking> {
        Some(Looking {
            wanted: wanted(request),
            first: words_of(&request.first),
            second: words_of(&request.second),
            room: request.out_len,
        })
    }
}

impl Looking {
    /// What the trial makes of it.
    fn part(&self, found: Found) -> Outcome {
        found.map(|row| part(&row, self.room))
    }

    fn right(&self) -> Found {
        lookup(self.wanted, &self.first, &self.second)
    }

    fn sound(&self) -> Result<(), Refusal> {
        sound(&self.first, 1)?;
        sound(&self.second, 2)
    }

    /// The first row of either sheet that fits.
    fn fitting(&self, fits: impl Fn(&Row, Wanted) -> bool) -> Found {
        self.sound()?;
        let rows = [node_rows(&self.first), node_rows(&self.second)].concat();
        rows.into_iter().find(|row| fits(row, self.wanted)).ok_or(refusal(32))
    }

    fn in_rows(&self, left: impl Fn(&mut Vec<Row>)) -> Found {
        self.sound()?;
        let mut sheets = [node_rows(&self.first), node_rows(&self.second)];
        sheets.iter_mut().for_each(left);
        sheets.concat().into_iter().find(|row| row[..3] == self.wanted).ok_or(refusal(32))
    }
}

fn prefers_second(looking: &Looking) -> Found {
    looking.sound()?;
    let (first, second) = (&looking.first, &looking.second);
    standing(looking.wanted, second).or(standing(looking.wanted, first)).ok_or(refusal(32))
}

fn first_alone(looking: &Looking) -> Found {
    looking.sound()?;
    standing(looking.wanted, &looking.first).ok_or(refusal(32))
}

fn second_alone(looking: &Looking) -> Found {
    looking.sound()?;
    standing(looking.wanted, &looking.second).ok_or(refusal(32))
}

fn ignores_variant(looking: &Looking) -> Found {
    looking.fitting(|row, wanted| row[..2] == wanted[..2])
}

fn ignores_type(looking: &Looking) -> Found {
    looking.fitting(|row, wanted| row[1..3] == wanted[1..])
}

fn ignores_number(looking: &Looking) -> Found {
    looking.fitting(|row, wanted| row[0] == wanted[0] && row[2] == wanted[2])
}

fn ignores_other_variants(looking: &Looking) -> Found {
    let same = |row: &Row, wanted: Wanted| row[0] != DEED || row[2] == wanted[2];
    looking.fitting(|row, wanted| row[..2] == wanted[..2] && same(row, wanted))
}

fn fuses_offices(looking: &Looking) -> Found {
    let mut row = looking.right()?;
    let other = standing(looking.wanted, &looking.second);
    row[3] |= other.map_or(0, |other| other[3]);
    Ok(row)
}

fn without_first_row(looking: &Looking) -> Found {
    looking.in_rows(|rows| drop(rows.drain(..rows.len().min(1))))
}

fn without_last_row(looking: &Looking) -> Found {
    looking.in_rows(|rows| rows.truncate(rows.len().saturating_sub(1)))
}

fn second_checked_first(looking: &Looking) -> Found {
    sound(&looking.second, 2)?;
    looking.right()
}

fn second_only_if_needed(looking: &Looking) -> Found {
    sound(&looking.first, 1)?;
    standing(looking.wanted, &looking.first).map_or_else(|| looking.right(), Ok)
}

/// A look for the identity before anything is checked: at every four words where
/// a node row could stand.
fn stands_somewhere(looking: &Looking) -> bool {
    let rows = |words: &[u32]| {
        let nodes = words.get(2).map_or(0, |&count| count as usize);
        let rows: Vec<u32> = words.iter().skip(HEADER).copied().collect();
        rows.chunks_exact(NODE_WIDTH).take(nodes).any(|row| row[..3] == looking.wanted)
    };
    rows(&looking.first) || rows(&looking.second)
}

fn unknown_before_first(looking: &Looking) -> Found {
    insist(stands_somewhere(looking), 32)?;
    looking.right()
}

fn unknown_before_second(looking: &Looking) -> Found {
    sound(&looking.first, 1)?;
    insist(stands_somewhere(looking), 32)?;
    looking.right()
}

fn always_sheet_one(looking: &Looking) -> Found {
    looking.right().map_err(|fault| Refusal { sheet: fault.sheet.min(1), ..fault })
}

fn as_a_row(looking: &Looking) -> Found {
    looking.sound()?;
    let [sort, number, variant] = looking.wanted;
    insist((PERSON..=FOLIO).contains(&sort), 6)?;
    insist(number != 0 && (variant == 0 || sort == DEED), 7)?;
    looking.right()
}

fn short_refused(looking: &Looking) -> Found {
    let row = looking.right()?;
    insist(looking.room >= row.len(), 25)?;
    Ok(row)
}

fn counted_as_fits(looking: &Looking) -> Outcome {
    let part = looking.part(looking.right())?;
    Ok(Answer { count: part.written.len() as u32, ..part })
}
