//! One row more: it is put into the list of the rows of its table, and where it is a
//! node, the ends behind it go up by one.

use crate::model::answer::{fitting, refusal, sound, Answer, Refusal};
use crate::model::judge::{edge_row_faults, node_row_faults, widened};
use crate::model::limits::{MOST_NODES, NODE_WIDTH};
use crate::model::position::{key_of, Table};
use crate::model::sheet::*;

pub fn add(table: Table, row: Row, words: &[u32], room: usize) -> Result<Answer, Refusal> {
    sound(words, 1)?;
    match faults(table, row, words, room).first() {
        Some(&number) => Err(refusal(number)),
        None => {
            let at = table.position(key_of(row), words).row;
            let answer = fitting(with(table, row, at, words), room)?;
            Ok(Answer { value: at, ..answer })
        }
    }
}

/// Of an accepted sheet: every number by which the row is refused, in their order. The
/// first counts.
pub fn faults(table: Table, row: Row, words: &[u32], room: usize) -> Vec<u32> {
    let mut all = row_faults(table, row, words);
    all.extend((table.rows(words).len() >= most_rows(table, words)).then_some(4));
    all.extend((room < words.len() + width(table, words)).then_some(25));
    all
}

/// Those of the row itself, and 9 or 16 where what it names stands, with whatever
/// offices.
pub fn row_faults(table: Table, row: Row, words: &[u32]) -> Vec<u32> {
    let (sheet, own) = (widened(words), row.map(u64::from));
    let there = table.position(key_of(row), words).there;
    let mut all = match table {
        Table::Nodes => node_row_faults(&sheet, own).to_vec(),
        Table::Edges => edge_row_faults(&sheet, own).to_vec(),
    };
    all.push((twice(table), there));
    all.into_iter().filter(|(_, applies)| *applies).map(|(number, _)| number).collect()
}

/// The number of a row that stands already.
pub fn twice(table: Table) -> u32 {
    match table {
        Table::Nodes => 9,
        Table::Edges => 16,
    }
}

pub fn most_rows(table: Table, words: &[u32]) -> usize {
    match table {
        Table::Nodes => MOST_NODES,
        Table::Edges => form(words).most_edges(),
    }
}

/// Words of a row.
pub fn width(table: Table, words: &[u32]) -> usize {
    match table {
        Table::Nodes => NODE_WIDTH,
        Table::Edges => form(words).edge_width(),
    }
}

/// Everything else is as it was: identities, marks and the office count.
fn with(table: Table, row: Row, at: u32, words: &[u32]) -> Vec<u32> {
    let [mut nodes, mut edges] = [Table::Nodes, Table::Edges].map(|own| own.rows(words));
    match table {
        Table::Nodes => {
            nodes.insert(at as usize, row);
            let moved = |end: u32| if end >= at { end + 1 } else { end };
            for edge in &mut edges {
                (edge[1], edge[2]) = (moved(edge[1]), moved(edge[2]));
            }
        }
        Table::Edges => edges.insert(at as usize, row),
    }
    Sheet { office_count: office_count(words), nodes, edges }.words()
}
