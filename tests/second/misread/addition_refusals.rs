//! Wrong versions of adding a row: what they refuse, and in which order.

use crate::misread::additions::{Addition, BOTH, EDGES, NODES};
use crate::misread::{wrong, Misreading, Outcome};
use crate::model::addition::{add, most_rows, twice};
use crate::model::answer::{insist, refusal, sound, Answer, Refusal};
use crate::model::limits::MOST_OFFICES;
use crate::model::marks::all_marks;
use crate::model::position::{key_of, Table};
use crate::model::sheet::*;
use crate::trial::request::MOST_OUTPUT;

/// Told apart by small sheets.
pub const WRONG: [Misreading<Addition>; 34] = [
    wrong("the row's faults before the sheet's", BOTH, row_before_sheet),
    wrong("the sheet's faults have no place", BOTH, without_place),
    wrong("the row's faults at the sheet", BOTH, |it| it.placed(|_, _| (1, 0))),
    wrong("the row's faults at its place", BOTH, |it| it.placed(|row, _| (1, row))),
    wrong("9 and 16 at the row that stands", BOTH, |it| {
        it.placed(|row, number| if [9, 16].contains(&number) { (0, row) } else { (0, 0) })
    }),
    wrong("7 before 6", NODES, |it| it.before(7, &[6])),
    wrong("8 before 6 and 7", NODES, |it| it.before(8, &[6, 7])),
    wrong("9 before 8", NODES, |it| it.before(9, &[8])),
    wrong("12 before 11", EDGES, |it| it.before(12, &[11])),
    wrong("13 before 12", EDGES, |it| it.before(13, &[12])),
    wrong("14 before 12 and 13", EDGES, |it| it.before(14, &[12, 13])),
    wrong("15 before 11 to 14", EDGES, |it| it.before(15, &[11, 12, 13, 14])),
    wrong("16 before 15", EDGES, |it| it.before(16, &[15])),
    wrong("25 before the row's own", BOTH, |it| it.before(25, &[6, 7, 8, 11, 12, 13, 14, 15])),
    wrong("25 before 9 and 16", BOTH, |it| it.before(25, &[9, 16])),
    wrong("a type that there is not is added", NODES, |it| it.lenient(6)),
    wrong("number 0 or a variant is added", NODES, |it| it.lenient(7)),
    wrong("any offices are added", NODES, |it| it.lenient(8)),
    wrong("a node is added twice", NODES, |it| it.lenient(9)),
    wrong("a containment in itself is added", EDGES, |it| it.lenient(14)),
    wrong("an edge is added twice", EDGES, |it| it.lenient(16)),
    wrong("there alone with the same offices", BOTH, there_with_offices),
    wrong("offices join those that stand", BOTH, fused),
    wrong("nothing is wrong where it stands", BOTH, unchanged),
    wrong("offices within the most, not the count", BOTH, any_office),
    wrong("edge offices within the count, not the ends'", EDGES, whatever_the_ends),
    wrong("edge offices within one end's", EDGES, |it| it.within(|from, to| from | to)),
    wrong("edge offices within the from row's", EDGES, |it| it.within(|from, _| from)),
    wrong("edge offices within the to row's", EDGES, |it| it.within(|_, to| to)),
    wrong("edge offices are all that the ends have", EDGES, all_of_the_ends),
    wrong("deeds alone differ by more than their number", NODES, variants_are_one),
    wrong("an exact room is too short", BOTH, exact_refused),
    wrong("room for the old sheet is enough", BOTH, room_for_old),
    wrong("what fits is written", BOTH, cut_to_fit),
];

/// Told apart by full tables and by tables with a row free.
pub const WRONG_AT_LIMITS: [Misreading<Addition>; 8] = [
    wrong("4 before the row's own", BOTH, |it| it.before(4, &[6, 7, 8, 11, 12, 13, 14, 15])),
    wrong("4 before 9 and 16", BOTH, |it| it.before(4, &[9, 16])),
    wrong("25 before 4", BOTH, |it| it.before(25, &[4])),
    wrong("the last free row is refused", BOTH, |it| {
        it.limited_by(|it| it.count() + 1 >= it.most())
    }),
    wrong("one row more is let by", BOTH, |it| it.limited_by(|it| it.count() > it.most())),
    wrong("a full table refuses the other's rows", BOTH, |it| it.limited_by(other_full)),
    wrong("a sheet is full where both tables are", BOTH, |it| it.limited_by(both_full)),
    wrong("29 and 30 for 4", BOTH, as_a_union),
];

impl Addition {
    /// Another place of the row's own faults, from its row and the number.
    fn placed(&self, place: fn(u32, u32) -> (u32, u32)) -> Outcome {
        self.right().map_err(|it| match it.sheet {
            0 => {
                let row = self.table.position(key_of(self.row), &self.words).row;
                let (sheet, row) = place(row, it.number);
                Refusal { number: it.number, sheet, row }
            }
            _ => it,
        })
    }

    /// This number instead of one of these, where both apply.
    fn before(&self, number: u32, others: &[u32]) -> Outcome {
        sound(&self.words, 1)?;
        let all = self.faults();
        let first = all.first().is_some_and(|first| others.contains(first));
        insist(!first || !all.contains(&number), number)?;
        self.right()
    }

    /// Added though this number, and it alone, applies.
    fn lenient(&self, number: u32) -> Outcome {
        sound(&self.words, 1)?;
        match self.faults()[..] == [number] {
            true => Ok(self.put()),
            false => self.right(),
        }
    }

    /// Put behind all rows that are lower, whatever it is.
    fn put(&self) -> Answer {
        let [mut nodes, mut edges] = [Table::Nodes, Table::Edges].map(|it| it.rows(&self.words));
        let at = self.table.position(key_of(self.row), &self.words).row;
        match self.table {
            Table::Nodes => {
                nodes.insert(at as usize, self.row);
                let ends = edges.iter_mut().flat_map(|edge| &mut edge[1..3]);
                ends.for_each(|end| *end += u32::from(*end >= at));
            }
            Table::Edges => edges.insert(at as usize, self.row),
        }
        let written = Sheet { office_count: office_count(&self.words), nodes, edges }.words();
        Answer { value: at, count: written.len() as u32, written, ..Answer::default() }
    }

    /// Another reading of 15, by the offices of both ends.
    fn within(&self, allowed: fn(u32, u32) -> u32) -> Outcome {
        sound(&self.words, 1)?;
        let nodes = node_rows(&self.words);
        let end = |row: u32| nodes.get(row as usize).map_or(0, |row| row[3]);
        let allowed = allowed(end(self.row[1]), end(self.row[2]));
        match self.row[3] != 0 && self.row[3] & !allowed == 0 {
            true => self.lenient(15),
            false => self.right(),
        }
    }

    fn count(&self) -> usize {
        self.table.rows(&self.words).len()
    }

    fn most(&self) -> usize {
        most_rows(self.table, &self.words)
    }

    /// 4 where the table is full in this sense.
    fn limited_by(&self, full: fn(&Addition) -> bool) -> Outcome {
        sound(&self.words, 1)?;
        let all = self.faults();
        let others: Vec<u32> = all.into_iter().filter(|&number| number != 4).collect();
        match others.first() {
            Some(number) if *number != 25 => Err(refusal(*number)),
            _ => {
                insist(!full(self), 4)?;
                insist(others.is_empty(), 25)?;
                Ok(self.put())
            }
        }
    }
}

fn row_before_sheet(addition: &Addition) -> Outcome {
    let [first, _, _, offices] = addition.row;
    match addition.table {
        Table::Nodes => insist((PERSON..=FOLIO).contains(&first), 6)?,
        Table::Edges => insist((MEMBER..=APPLIES).contains(&first), 11)?,
    }
    insist(offices != 0, if addition.table == Table::Nodes { 8 } else { 15 })?;
    addition.right()
}

fn without_place(addition: &Addition) -> Outcome {
    addition.right().map_err(|Refusal { number, .. }| refusal(number))
}

fn there_with_offices(addition: &Addition) -> Outcome {
    sound(&addition.words, 1)?;
    match addition.table.rows(&addition.words).contains(&addition.row) {
        true => addition.right(),
        false => addition.lenient(twice(addition.table)),
    }
}

/// The sheet with the row's offices added to those of the row that stands.
fn fused(addition: &Addition) -> Outcome {
    sound(&addition.words, 1)?;
    if addition.faults() != [twice(addition.table)] {
        return addition.right();
    }
    let at = addition.table.position(key_of(addition.row), &addition.words).row;
    let [mut nodes, mut edges] = [Table::Nodes, Table::Edges].map(|it| it.rows(&addition.words));
    let rows = if addition.table == Table::Nodes { &mut nodes } else { &mut edges };
    rows[at as usize][3] |= addition.row[3];
    let written = Sheet { office_count: office_count(&addition.words), nodes, edges }.words();
    Ok(Answer { value: at, count: written.len() as u32, written, ..Answer::default() })
}

fn unchanged(addition: &Addition) -> Outcome {
    sound(&addition.words, 1)?;
    match addition.faults() == [twice(addition.table)] {
        true => {
            let value = addition.table.position(key_of(addition.row), &addition.words).row;
            let (count, written) = (addition.words.len() as u32, addition.words.clone());
            Ok(Answer { value, count, written, ..Answer::default() })
        }
        false => addition.right(),
    }
}

/// 8 and 15 by the most offices that a sheet has.
fn any_office(addition: &Addition) -> Outcome {
    match (1..=all_marks(MOST_OFFICES)).contains(&addition.row[3]) {
        true => addition.lenient(if addition.table == Table::Nodes { 8 } else { 15 }),
        false => addition.right(),
    }
}

fn whatever_the_ends(addition: &Addition) -> Outcome {
    sound(&addition.words, 1)?;
    match (1..=all_marks(office_count(&addition.words))).contains(&addition.row[3]) {
        true => addition.lenient(15),
        false => addition.right(),
    }
}

fn all_of_the_ends(addition: &Addition) -> Outcome {
    let answer = addition.right()?;
    let end = |which: usize| node_rows(&addition.words)[addition.row[which] as usize][3];
    insist(addition.row[3] == end(1) & end(2), 15)?;
    Ok(answer)
}

/// 9 for another variant of a deed that stands.
fn variants_are_one(addition: &Addition) -> Outcome {
    let answer = addition.right()?;
    let [sort, number, ..] = addition.row;
    let stands = |row: &Row| row[..2] == [sort, number];
    insist(!node_rows(&addition.words).iter().any(stands), 9)?;
    Ok(answer)
}

fn exact_refused(addition: &Addition) -> Outcome {
    let answer = addition.right()?;
    insist(addition.room > answer.written.len(), 25)?;
    Ok(answer)
}

fn room_for_old(addition: &Addition) -> Outcome {
    match addition.right() {
        Err(Refusal { number: 25, .. }) if addition.room >= addition.words.len() => {
            cut_to_fit(addition)
        }
        outcome => outcome,
    }
}

fn cut_to_fit(addition: &Addition) -> Outcome {
    let mut answer = add(addition.table, addition.row, &addition.words, MOST_OUTPUT)?;
    answer.written.truncate(addition.room);
    Ok(answer)
}

fn full_tables(addition: &Addition) -> [bool; 2] {
    [Table::Nodes, Table::Edges]
        .map(|it| it.rows(&addition.words).len() == most_rows(it, &addition.words))
}

fn other_full(addition: &Addition) -> bool {
    full_tables(addition).contains(&true)
}

fn both_full(addition: &Addition) -> bool {
    full_tables(addition) == [true, true]
}

/// As joining refuses a union that is too large.
fn as_a_union(addition: &Addition) -> Outcome {
    addition.right().map_err(|it| match (it.number, it.sheet) {
        (4, 0) => refusal(if addition.table == Table::Nodes { 29 } else { 30 }),
        _ => it,
    })
}
