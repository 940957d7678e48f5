//! Wrong versions of adding a row: what comes of it. What they refuse stands in
//! `addition_refusals`.

use crate::misread::{wrong, Asked, Misreading, Outcome};
use crate::model::addition::{add, faults};
use crate::model::answer::{fitting, Answer};
use crate::model::limits::WORD;
use crate::model::position::Table;
use crate::model::sheet::*;
use crate::trial::expect::row_of;
use crate::trial::operation::{adding, table_of, ADD_EDGE, ADD_NODE};
use crate::trial::request::{Request, MOST_OUTPUT};

pub struct Addition {
    pub words: Vec<u32>,
    pub table: Table,
    pub row: Row,
    pub room: usize,
}

pub const BOTH: &[u32] = &[ADD_NODE, ADD_EDGE];
pub const NODES: &[u32] = &[ADD_NODE];
pub const EDGES: &[u32] = &[ADD_EDGE];

pub const WRONG: [Misreading<Addition>; 23] = [
    wrong("put behind the last row", BOTH, |it| it.at(|_, count| count)),
    wrong("put in front of the first row", BOTH, |it| it.at(|_, _| 0)),
    wrong("put one row too far", BOTH, |it| it.at(|row, count| (row + 1).min(count))),
    wrong("put one row too early", BOTH, |it| it.at(|row, _| row.saturating_sub(1))),
    wrong("ends are not renumbered", NODES, |it| it.moved(|_, _, _| false)),
    wrong("ends at its place stay", NODES, |it| it.moved(|end, at, _| end > at)),
    wrong("ends before its place go up", NODES, |it| it.moved(|end, at, _| end + 1 >= at)),
    wrong("every end goes up", NODES, |it| it.moved(|_, _, _| true)),
    wrong("from rows alone go up", NODES, |it| it.moved(|end, at, which| end >= at && which == 1)),
    wrong("to rows alone go up", NODES, |it| it.moved(|end, at, which| end >= at && which == 2)),
    wrong("a new edge renumbers ends too", EDGES, edge_renumbers),
    wrong("the row replaces the one at its place", BOTH, replaces),
    wrong("marked with every office", BOTH, marked_with_all),
    wrong("marked with office 1", BOTH, marked_with_first),
    wrong("the edge is marked as its ends are", EDGES, marked_as_ends),
    wrong("its marks come to every row", BOTH, marks_spread),
    wrong("the office count is that of the row's marks", BOTH, offices_counted),
    wrong("the header's counts stay", BOTH, |it| it.header([2, 3])),
    wrong("the edge offset stays", NODES, |it| it.header([5, 5])),
    wrong("the value is not told", BOTH, |it| it.told(|answer| (0, answer.count))),
    wrong("the value counts from 1", BOTH, |it| it.told(|answer| (answer.value + 1, answer.count))),
    wrong("the value is the node count", BOTH, |it| it.told(|it| (it.written[2], it.count))),
    wrong("the count is in bytes", BOTH, |it| it.told(|it| (it.value, WORD as u32 * it.count))),
];

impl Asked for Addition {
    fn of(request: &Request) -> Option<Addition> {
        let table = table_of(request.operation)?;
        let (words, row) = (words_of(&request.first), row_of(request));
        let own = request.operation == adding(table);
        own.then_some(Addition { words, table, row, room: request.out_len })
    }
}

impl Addition {
    pub fn right(&self) -> Outcome {
        add(self.table, self.row, &self.words, self.room)
    }

    /// The numbers that apply to a row of an accepted sheet.
    pub fn faults(&self) -> Vec<u32> {
        faults(self.table, self.row, &self.words, self.room)
    }

    /// The right sheet, changed; it is as long as it was.
    fn changed(&self, change: impl Fn(&mut Sheet, u32)) -> Outcome {
        let answer = self.right()?;
        let mut sheet = sheet_of(&answer.written);
        change(&mut sheet, answer.value);
        Ok(Answer { written: sheet.words(), ..answer })
    }

    /// At another row, and the value tells that one. The ends are as they should be.
    fn at(&self, place: fn(usize, usize) -> usize) -> Outcome {
        let mut answer = self.right()?;
        let mut sheet = sheet_of(&answer.written);
        let rows = if self.table == Table::Nodes { &mut sheet.nodes } else { &mut sheet.edges };
        let row = rows.remove(answer.value as usize);
        let at = place(answer.value as usize, rows.len());
        rows.insert(at, row);
        (answer.value, answer.written) = (at as u32, sheet.words());
        Ok(answer)
    }

    /// Where this holds of an end, of the new row's place, and of which end it is, it goes
    /// up.
    fn moved(&self, goes_up: fn(u32, u32, usize) -> bool) -> Outcome {
        let before = self.edges();
        self.changed(|sheet, at| {
            for (edge, old) in sheet.edges.iter_mut().zip(&before) {
                for which in [1, 2] {
                    edge[which] = old[which] + u32::from(goes_up(old[which], at, which));
                }
            }
        })
    }

    fn edges(&self) -> Vec<Row> {
        self.right().map_or(Vec::new(), |_| Table::Edges.rows(&self.words))
    }

    /// These words of the header are those of the old sheet.
    fn header(&self, at: [usize; 2]) -> Outcome {
        let mut answer = self.right()?;
        at.iter().for_each(|&at| answer.written[at] = self.words[at]);
        Ok(answer)
    }

    /// Another value and count.
    fn told(&self, numbers: fn(&Answer) -> (u32, u32)) -> Outcome {
        let mut answer = self.right()?;
        (answer.value, answer.count) = numbers(&answer);
        Ok(answer)
    }
}

fn sheet_of(words: &[u32]) -> Sheet {
    let [nodes, edges] = [Table::Nodes, Table::Edges].map(|table| table.rows(words));
    Sheet { office_count: office_count(words), nodes, edges }
}

fn edge_renumbers(addition: &Addition) -> Outcome {
    addition.changed(|sheet, at| {
        for edge in &mut sheet.edges {
            edge[1..3].iter_mut().for_each(|end| *end += u32::from(*end >= at));
        }
    })
}

fn replaces(addition: &Addition) -> Outcome {
    let answer = addition.right()?;
    let mut sheet = sheet_of(&answer.written);
    let rows = if addition.table == Table::Nodes { &mut sheet.nodes } else { &mut sheet.edges };
    let behind = answer.value as usize + 1;
    if behind < rows.len() {
        rows.remove(behind);
    }
    Ok(Answer { value: answer.value, ..fitting(sheet.words(), MOST_OUTPUT)? })
}

fn own_row(addition: &Addition, offices: impl Fn(&Sheet, Row) -> u32) -> Outcome {
    addition.changed(|sheet, at| {
        let offices = offices(sheet, addition.row);
        match addition.table {
            Table::Nodes => sheet.nodes[at as usize][3] = offices,
            Table::Edges => sheet.edges[at as usize][3] = offices,
        }
    })
}

fn marked_with_all(addition: &Addition) -> Outcome {
    own_row(addition, |sheet, _| (1 << sheet.office_count) - 1)
}

fn marked_with_first(addition: &Addition) -> Outcome {
    own_row(addition, |_, _| 1)
}

fn marked_as_ends(addition: &Addition) -> Outcome {
    own_row(addition, |sheet, row| {
        sheet.nodes[row[1] as usize][3] & sheet.nodes[row[2] as usize][3]
    })
}

fn marks_spread(addition: &Addition) -> Outcome {
    addition.changed(|sheet, _| {
        let rows = sheet.nodes.iter_mut().chain(&mut sheet.edges);
        rows.for_each(|row| row[3] |= addition.row[3]);
    })
}

fn offices_counted(addition: &Addition) -> Outcome {
    addition.changed(|sheet, _| sheet.office_count = if addition.row[3] > 1 { 2 } else { 1 })
}
