//! Wrong versions of searching for a row.

use crate::misread::{wrong, Asked, Misreading, Outcome};
use crate::model::answer::{insist, refusal, sound, Answer, Refusal};
use crate::model::marks::has;
use crate::model::position::{key_of, search, Key, Position, Table};
use crate::model::sheet::*;
use crate::trial::expect::wanted;
use crate::trial::operation::{finding, table_of, FIND_EDGE, FIND_NODE};
use crate::trial::request::Request;

pub struct Search {
    words: Vec<u32>,
    table: Table,
    key: Key,
}

const BOTH: &[u32] = &[FIND_NODE, FIND_EDGE];
const NODES: &[u32] = &[FIND_NODE];
const EDGES: &[u32] = &[FIND_EDGE];

pub const WRONG: [Misreading<Search>; 25] = [
    wrong("rows are counted from 1", BOTH, |it| it.placed(|at, _| at.row + 1)),
    wrong("nowhere is row 0", BOTH, |it| it.absent(|_, _| 0)),
    wrong("nowhere is behind the last", BOTH, |it| it.absent(|_, count| count)),
    wrong("nowhere is the row before", BOTH, |it| it.absent(|row, _| row.saturating_sub(1))),
    wrong("nowhere is the row after", BOTH, |it| it.absent(|row, _| row + 1)),
    wrong("nowhere is the last row at most", BOTH, |it| {
        it.absent(|row, count| row.min(count.saturating_sub(1)))
    }),
    wrong("rows that are not higher are counted", BOTH, |it| {
        it.placed(|at, _| at.row + u32::from(at.there))
    }),
    wrong("rows that are higher are counted", BOTH, |it| it.placed(higher)),
    wrong("value and count exchanged", BOTH, exchanged),
    wrong("the value is 0 where it stands", BOTH, turned),
    wrong("it is never there", BOTH, |it| it.found(|_, _| false)),
    wrong("the first row is never found", BOTH, |it| it.found(|row, _| row != 0)),
    wrong("the last row is never found", BOTH, |it| it.found(|row, count| row + 1 != count)),
    wrong("what is not found is refused", BOTH, not_found_refused),
    wrong("words are compared with a sign", BOTH, |it| it.by(|key| key.map(|word| word ^ 1 << 31))),
    wrong("the last word does not count", BOTH, |it| it.by(|[a, b, _]| [a, b, 0])),
    wrong("the first word does not count", BOTH, |it| it.by(|[_, b, c]| [0, b, c])),
    wrong("the second word comes first", BOTH, |it| it.by(|[a, b, c]| [b, a, c])),
    wrong("the third word before the second", BOTH, |it| it.by(|[a, b, c]| [a, c, b])),
    wrong("rows of office 1 alone are there", BOTH, of_first_office),
    wrong("rows of office 1 alone are counted", BOTH, first_office_counted),
    wrong("a type that there is not is refused", NODES, type_refused),
    wrong("number 0 is refused", NODES, number_refused),
    wrong("an end past the last is refused", EDGES, end_refused),
    wrong("the sheet's faults have no place", BOTH, without_place),
];

impl Asked for Search {
    fn of(request: &Request) -> Option<Search> {
        let table = table_of(request.operation)?;
        let (words, key) = (words_of(&request.first), wanted(request));
        (request.operation == finding(table)).then_some(Search { words, table, key })
    }
}

impl Search {
    fn right(&self) -> Outcome {
        search(self.table, self.key, &self.words)
    }

    fn position(&self) -> Result<(Position, Vec<Row>), Refusal> {
        sound(&self.words, 1)?;
        Ok((self.table.position(self.key, &self.words), self.table.rows(&self.words)))
    }

    /// Another row, from where it is and all there are.
    fn placed(&self, row: fn(Position, u32) -> u32) -> Outcome {
        let (position, rows) = self.position()?;
        told(row(position, rows.len() as u32), position.there)
    }

    /// Another row, where it does not stand.
    fn absent(&self, row: fn(u32, u32) -> u32) -> Outcome {
        let (Position { row: own, there }, rows) = self.position()?;
        told(if there { own } else { row(own, rows.len() as u32) }, there)
    }

    /// Found only where this holds of its row and all there are.
    fn found(&self, holds: fn(u32, u32) -> bool) -> Outcome {
        let (Position { row, there }, rows) = self.position()?;
        told(row, there && holds(row, rows.len() as u32))
    }

    /// Every name, the row's own and those that stand, read as another.
    fn by(&self, read: fn(Key) -> Key) -> Outcome {
        let (_, rows) = self.position()?;
        let keys: Vec<Key> = rows.into_iter().map(|row| read(key_of(row))).collect();
        let lower = keys.iter().filter(|&&own| own < read(self.key)).count();
        told(lower as u32, keys.contains(&read(self.key)))
    }
}

fn told(row: u32, there: bool) -> Outcome {
    Ok(Answer { value: u32::from(there), count: row, ..Answer::default() })
}

fn higher(position: Position, count: u32) -> u32 {
    count - position.row - u32::from(position.there)
}

fn exchanged(search: &Search) -> Outcome {
    let Answer { value, count, .. } = search.right()?;
    Ok(Answer { value: count, count: value, ..Answer::default() })
}

fn turned(search: &Search) -> Outcome {
    let answer = search.right()?;
    Ok(Answer { value: 1 - answer.value, ..answer })
}

/// As the lookup in two sheets refuses it.
fn not_found_refused(search: &Search) -> Outcome {
    let answer = search.right()?;
    insist(answer.value == 1, 32)?;
    Ok(answer)
}

fn of_first_office(search: &Search) -> Outcome {
    let (Position { row, there }, rows) = search.position()?;
    told(row, there && has(rows[row as usize][3], 1))
}

fn first_office_counted(search: &Search) -> Outcome {
    let (Position { there, .. }, rows) = search.position()?;
    let counts = |row: &&Row| has(row[3], 1) && key_of(**row) < search.key;
    told(rows.iter().filter(counts).count() as u32, there)
}

fn type_refused(search: &Search) -> Outcome {
    let answer = search.right()?;
    insist((PERSON..=FOLIO).contains(&search.key[0]), 6)?;
    Ok(answer)
}

fn number_refused(search: &Search) -> Outcome {
    let answer = search.right()?;
    insist(search.key[1] != 0, 7)?;
    Ok(answer)
}

fn end_refused(search: &Search) -> Outcome {
    let answer = search.right()?;
    let count = node_count(&search.words) as u32;
    insist(search.key[1] < count && search.key[2] < count, 12)?;
    Ok(answer)
}

fn without_place(search: &Search) -> Outcome {
    search.right().map_err(|Refusal { number, .. }| refusal(number))
}
