//! A sheet as rows, as words and as bytes. Nothing here judges.

use std::slice::Chunks;

use crate::model::limits::{edge_offset, Form, HEADER, MOST_NODES, NODE_WIDTH, WORD};

/// A node row, or an edge row of form 1.
pub type Row = [u32; NODE_WIDTH];

pub const PERSON: u32 = 1;
pub const CATEGORY: u32 = 2;
pub const DEED: u32 = 3;
pub const FOLIO: u32 = 4;

pub const MEMBER: u32 = 1;
pub const CONTAINED: u32 = 2;
pub const GRANT: u32 = 3;
pub const BAN: u32 = 4;
pub const APPLIES: u32 = 5;

#[derive(Clone, Debug, PartialEq)]
pub struct Sheet {
    pub office_count: u32,
    /// type, number, variant, offices
    pub nodes: Vec<Row>,
    /// kind, from row, to row, offices
    pub edges: Vec<Row>,
}

impl Sheet {
    pub fn new(office_count: u32, nodes: &[Row], edges: &[Row]) -> Sheet {
        Sheet { office_count, nodes: nodes.to_vec(), edges: edges.to_vec() }
    }

    pub fn words(&self) -> Vec<u32> {
        let mut words = header(self.office_count, self.nodes.len(), self.edges.len()).to_vec();
        words.extend(self.nodes.iter().flatten());
        words.extend(self.edges.iter().flatten());
        words
    }
}

/// The header of a sheet of form 1.
pub fn header(office_count: u32, nodes: usize, edges: usize) -> [u32; HEADER] {
    let offsets = [HEADER as u32, edge_offset(nodes) as u32];
    [Form::One.word(), office_count, nodes as u32, edges as u32, offsets[0], offsets[1]]
}

/// Of an accepted sheet.
pub fn form(words: &[u32]) -> Form {
    Form::of_word(words[0]).expect("an accepted sheet has a form")
}

pub fn office_count(words: &[u32]) -> u32 {
    words[1]
}

pub fn node_count(words: &[u32]) -> usize {
    words[2] as usize
}

pub fn edge_count(words: &[u32]) -> usize {
    words[3] as usize
}

/// Whether there are as many rows as there may be.
pub fn is_full(words: &[u32]) -> bool {
    node_count(words) == MOST_NODES && edge_count(words) == form(words).most_edges()
}

/// Of an accepted sheet.
pub fn node_rows(words: &[u32]) -> Vec<Row> {
    let rows = words[HEADER..].chunks(NODE_WIDTH).take(node_count(words));
    rows.map(|row| [row[0], row[1], row[2], row[3]]).collect()
}

/// Of an accepted sheet: as many words each as its form has.
pub fn edge_rows(words: &[u32]) -> Chunks<'_, u32> {
    words[edge_offset(node_count(words))..].chunks(form(words).edge_width())
}

/// The types an edge kind asks for at its ends; used to make and to damage
/// sheets. The judge has its own table, so that a slip in one shows.
pub fn end_types(kind: u32) -> Option<(u32, u32)> {
    match kind {
        MEMBER => Some((PERSON, CATEGORY)),
        CONTAINED => Some((CATEGORY, CATEGORY)),
        GRANT | BAN => Some((CATEGORY, DEED)),
        APPLIES => Some((DEED, FOLIO)),
        _ => None,
    }
}

pub fn bytes_of(words: &[u32]) -> Vec<u8> {
    words.iter().flat_map(|word| word.to_le_bytes()).collect()
}

/// A remainder of one to three bytes is dropped.
pub fn words_of(bytes: &[u8]) -> Vec<u32> {
    bytes
        .chunks_exact(WORD)
        .map(|four| u32::from_le_bytes([four[0], four[1], four[2], four[3]]))
        .collect()
}
