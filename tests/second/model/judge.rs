//! The table of refusals 33 and 1 to 17, line by line in its own order. Every
//! word is widened to 64 bits first, so that no sum here can overflow.

use std::cmp::Ordering;

use crate::model::limits::{Form, HEADER, MOST_BYTES, MOST_NODES, MOST_OFFICES, NODE_WIDTH, WORD};
use crate::model::sheet::words_of;

#[derive(Clone, Copy, Debug, PartialEq, Eq)]
pub struct Verdict {
    pub number: u32,
    pub row: u32,
}

pub const ACCEPTED: Verdict = Verdict { number: 0, row: 0 };

pub fn judge_bytes(bytes: &[u8]) -> Verdict {
    if bytes.len() % WORD != 0 || bytes.len() > MOST_BYTES {
        return Verdict { number: 33, row: 0 };
    }
    judge_words(&words_of(bytes))
}

pub fn judge_words(words: &[u32]) -> Verdict {
    let sheet = widened(words);
    let form = match header_fault(&sheet) {
        Ok(form) => form,
        Err(number) => return Verdict { number, row: 0 },
    };
    let (n, e) = (sheet[2], sheet[3]);
    for row in 0..n {
        if let Some(number) = node_fault(&sheet, row) {
            return Verdict { number, row: row as u32 };
        }
    }
    for row in 0..e {
        if let Some(number) = edge_fault(&sheet, form, row) {
            return Verdict { number, row: row as u32 };
        }
    }
    ACCEPTED
}

pub fn widened(words: &[u32]) -> Vec<u64> {
    words.iter().map(|&word| u64::from(word)).collect()
}

/// The form that the rows are read by, or the number of the fault.
fn header_fault(sheet: &[u64]) -> Result<Form, u32> {
    if sheet.len() < HEADER {
        return Err(1);
    }
    let (office_count, n, e) = (sheet[1], sheet[2], sheet[3]);
    let (node_offset, edge_offset) = (sheet[4], sheet[5]);
    let Some(form) = Form::of_word(sheet[0] as u32) else {
        return Err(2);
    };
    if office_count == 0 || office_count > u64::from(MOST_OFFICES) {
        return Err(3);
    }
    if n > MOST_NODES as u64 || e > form.most_edges() as u64 {
        return Err(4);
    }
    let edges_from = (HEADER + NODE_WIDTH * n as usize) as u64;
    let length = edges_from + form.edge_width() as u64 * e;
    let offsets = [HEADER as u64, edges_from];
    if [node_offset, edge_offset] != offsets || sheet.len() as u64 != length {
        return Err(5);
    }
    Ok(form)
}

fn node_fault(sheet: &[u64], row: u64) -> Option<u32> {
    let own = node(sheet, row);
    if let Some(number) = first(&node_row_faults(sheet, own)) {
        return Some(number);
    }
    order_fault(own, (row > 0).then(|| node(sheet, row - 1)), [9, 10])
}

/// 6, 7 and 8, and whether each applies to a node row by itself.
pub fn node_row_faults(sheet: &[u64], row: [u64; 4]) -> [(u32, bool); 3] {
    let [sort, number, variant, offices] = row;
    let deed = sort == 3;
    [
        (6, !(1..=4).contains(&sort)),
        (7, number == 0 || (variant != 0 && !deed)),
        (8, !offices_in_count(sheet, offices)),
    ]
}

/// The first that applies.
fn first(faults: &[(u32, bool)]) -> Option<u32> {
    faults.iter().find(|(_, applies)| *applies).map(|(number, _)| *number)
}

/// The one number where a row names what the row before it names, and the other where
/// it is lower. Offices do not count.
fn order_fault(row: [u64; 4], before: Option<[u64; 4]>, [equal, lower]: [u32; 2]) -> Option<u32> {
    match row[..3].cmp(&before?[..3]) {
        Ordering::Equal => Some(equal),
        Ordering::Less => Some(lower),
        Ordering::Greater => None,
    }
}

fn edge_fault(sheet: &[u64], form: Form, row: u64) -> Option<u32> {
    let own = edge(sheet, form, row);
    if let Some(number) = first(&edge_row_faults(sheet, own)) {
        return Some(number);
    }
    order_fault(own, (row > 0).then(|| edge(sheet, form, row - 1)), [16, 17])
}

/// 11 to 15, and whether each applies to an edge row by itself. An end that is not below
/// n has neither type nor offices that could be wrong.
pub fn edge_row_faults(sheet: &[u64], row: [u64; 4]) -> [(u32, bool); 5] {
    let [kind, from, to, offices] = row;
    let ends = [from, to].map(|end| (end < sheet[2]).then(|| node(sheet, end)));
    let [from_sort, to_sort] = ends.map(|end| end.map(|row| row[0]));
    let outside = |end: Option<[u64; 4]>| end.is_some_and(|row| !within(offices, row[3]));
    [
        (11, !(1..=5).contains(&kind)),
        (12, ends.contains(&None)),
        (13, !ends_fit(kind, from_sort, to_sort)),
        (14, kind == 2 && from == to),
        (15, !offices_in_count(sheet, offices) || ends.into_iter().any(outside)),
    ]
}

/// kind, and the types of its ends: 1 person, 2 category, 3 deed, 4 folio
const KINDS: [[u64; 3]; 5] = [[1, 1, 2], [2, 2, 2], [3, 2, 3], [4, 2, 3], [5, 3, 4]];

/// Of a kind that there is not, whether they fit any.
fn ends_fit(kind: u64, from_sort: Option<u64>, to_sort: Option<u64>) -> bool {
    let known = KINDS.iter().any(|own| own[0] == kind);
    let mut kinds = KINDS.iter().filter(|own| own[0] == kind || !known);
    kinds.any(|&[_, from, to]| {
        from_sort.is_none_or(|sort| sort == from) && to_sort.is_none_or(|sort| sort == to)
    })
}

/// A sum of the offices' marks, not 0, within the office count.
fn offices_in_count(sheet: &[u64], offices: u64) -> bool {
    offices != 0 && offices < 1 << sheet[1]
}

/// Each office of the edge is also one of the end's.
fn within(offices: u64, end_offices: u64) -> bool {
    offices & end_offices == offices
}

fn node(sheet: &[u64], row: u64) -> [u64; 4] {
    four(sheet, HEADER + NODE_WIDTH * row as usize)
}

/// Kind, ends and offices, with which an edge row of any form begins.
fn edge(sheet: &[u64], form: Form, row: u64) -> [u64; 4] {
    four(sheet, sheet[5] as usize + form.edge_width() * row as usize)
}

fn four(sheet: &[u64], at: usize) -> [u64; 4] {
    [sheet[at], sheet[at + 1], sheet[at + 2], sheet[at + 3]]
}
