//! Where a row stands in its table, or would stand: as many rows are before it as name
//! something lower. They are counted, one by one.

use crate::model::answer::{sound, Answer, Refusal};
use crate::model::sheet::*;

#[derive(Clone, Copy, Debug, PartialEq)]
pub enum Table {
    Nodes,
    Edges,
}

pub const TABLES: [Table; 2] = [Table::Nodes, Table::Edges];

/// What a row names: type, number, variant; or kind, from row, to row.
pub type Key = [u32; 3];

pub fn key_of([first, second, third, _]: Row) -> Key {
    [first, second, third]
}

#[derive(Clone, Copy, Debug, PartialEq)]
pub struct Position {
    pub row: u32,
    /// Whether the row of this name stands, with whatever offices.
    pub there: bool,
}

impl Table {
    /// Of an accepted sheet.
    pub fn rows(self, words: &[u32]) -> Vec<Row> {
        match self {
            Table::Nodes => node_rows(words),
            Table::Edges => edge_rows(words).map(|row| [row[0], row[1], row[2], row[3]]).collect(),
        }
    }

    /// Of an accepted sheet; the name may be any three words.
    pub fn position(self, key: Key, words: &[u32]) -> Position {
        let keys: Vec<Key> = self.rows(words).into_iter().map(key_of).collect();
        let lower = keys.iter().filter(|&&own| own < key).count();
        Position { row: lower as u32, there: keys.contains(&key) }
    }
}

/// Refuses nothing but a bad sheet: a name that no row can have stands nowhere, and has
/// its place all the same.
pub fn search(table: Table, key: Key, words: &[u32]) -> Result<Answer, Refusal> {
    sound(words, 1)?;
    let Position { row, there } = table.position(key, words);
    Ok(Answer { value: u32::from(there), count: row, ..Answer::default() })
}
