//! Named cases of rows that are not added: each refusal, and which of two comes first.
//! Sheet A has 8 nodes: persons 0 and 1, categories 2 and 3, deeds 4 and 5, folios 6 and 7.

use crate::model::position::{Table, TABLES};
use crate::model::sheet::*;
use crate::named::book::Book;
use crate::named::checks::{crowded, full};
use crate::named::joins::nothing;
use crate::named::lookups::bad_versions_of_a;
use crate::named::sister::*;

pub fn add_all(book: &mut Book) {
    nodes_of_a(book);
    edges_of_a(book);
    of_several_offices(book);
    without_nodes(book);
    full_tables(book);
    bad_sheets(book);
}

const LAST: u32 = u32::MAX;

/// A sheet and what it is called.
type Named<'a> = (&'a str, &'a Sheet);

fn refused(book: &mut Book, (name, sheet): Named, what: (Table, Row), number: u32) {
    book.not_added(&format!("{number}, {name}"), &sheet.words(), what, (number, 0, 0));
}

/// 6 before 7 before 8 before 9.
const NODES_OF_A: [(u32, Row); 29] = [
    (6, [0, 13, 0, 1]),
    (6, [5, 13, 0, 1]),
    (6, [257, 13, 0, 1]),
    (6, [LAST, 13, 0, 1]),
    (6, [5, 0, 0, 1]),
    (6, [5, 11, 3, 1]),
    (6, [0, 11, 0, 0]),
    (6, [0, 0, 1, 0]),
    (7, [1, 0, 0, 1]),
    (7, [3, 0, 1, 1]),
    (7, [1, 13, 1, 1]),
    (7, [2, 21, 1, 1]),
    (7, [4, 43, LAST, 1]),
    (7, [1, 0, 0, 0]),
    (7, [4, 42, 1, 2]),
    (8, [1, 13, 0, 0]),
    (8, [1, 13, 0, 2]),
    (8, [1, 13, 0, 3]),
    (8, [1, 13, 0, 4]),
    (8, [3, 31, 3, 257]),
    (8, [3, 31, 3, LAST]),
    (8, [1, 11, 0, 0]),
    (8, [4, 42, 0, 2]),
    (9, [1, 11, 0, 1]),
    (9, [1, 12, 0, 1]),
    (9, [2, 22, 0, 1]),
    (9, [3, 31, 1, 1]),
    (9, [3, 31, 2, 1]),
    (9, [4, 42, 0, 1]),
];

fn nodes_of_a(book: &mut Book) {
    for (number, row) in NODES_OF_A {
        refused(book, ("A", &sheet_a()), (Table::Nodes, row), number);
    }
}

/// 11 before 12 before 13 before 14 before 15 before 16.
const EDGES_OF_A: [(u32, Row); 41] = [
    (11, [0, 0, 2, 1]),
    (11, [6, 0, 2, 1]),
    (11, [258, 2, 3, 1]),
    (11, [LAST, 0, 2, 1]),
    (11, [0, 8, 8, 0]),
    (11, [6, 2, 2, 0]),
    (12, [1, 8, 2, 1]),
    (12, [1, 0, 8, 1]),
    (12, [1, 8, 9, 1]),
    (12, [1, LAST, 2, 1]),
    (12, [1, 0, LAST, 1]),
    (12, [1, 0x4000_0000, 2, 1]),
    (12, [1, 0, 0x4000_0002, 1]),
    (12, [2, 8, 8, 1]),
    (12, [1, 2, 8, 1]),
    (12, [1, 8, 2, 0]),
    (13, [1, 0, 1, 1]),
    (13, [1, 2, 2, 1]),
    (13, [1, 2, 0, 1]),
    (13, [2, 2, 4, 1]),
    (13, [2, 0, 0, 1]),
    (13, [3, 4, 2, 1]),
    (13, [3, 3, 6, 1]),
    (13, [4, 0, 5, 1]),
    (13, [5, 4, 5, 1]),
    (13, [5, 6, 4, 1]),
    (13, [5, 4, 4, 1]),
    (13, [1, 0, 1, 0]),
    (14, [2, 2, 2, 1]),
    (14, [2, 3, 3, 1]),
    (14, [2, 3, 3, 0]),
    (15, [1, 0, 3, 0]),
    (15, [1, 0, 3, 2]),
    (15, [1, 0, 3, 3]),
    (15, [1, 0, 3, 4]),
    (15, [3, 2, 5, LAST]),
    (15, [1, 0, 2, 0]),
    (15, [5, 5, 7, 2]),
    (16, [1, 0, 2, 1]),
    (16, [3, 3, 4, 1]),
    (16, [5, 5, 7, 1]),
];

fn edges_of_a(book: &mut Book) {
    for (number, row) in EDGES_OF_A {
        refused(book, ("A", &sheet_a()), (Table::Edges, row), number);
    }
}

/// In the joint of A and B person 12, row 1, and category 22, row 3, are office 1's
/// alone. A row that stands is there with whatever offices it is to be added.
fn of_several_offices(book: &mut Book) {
    let joint = ("the joint", &joint_of_a_and_b());
    for offices in [0, 4, 7, LAST] {
        refused(book, joint, (Table::Nodes, [1, 13, 0, offices]), 8);
        refused(book, joint, (Table::Edges, [1, 0, 3, offices]), 15);
    }
    for offices in 1..=3 {
        refused(book, joint, (Table::Nodes, [1, 12, 0, offices]), 9);
        refused(book, joint, (Table::Nodes, [2, 21, 0, offices]), 9);
        refused(book, joint, (Table::Edges, [1, 0, 2, offices]), 16);
    }
    refused(book, joint, (Table::Edges, [4, 2, 5, 2]), 16);
    for offices in [2, 3] {
        refused(book, joint, (Table::Edges, [1, 0, 3, offices]), 15);
        refused(book, joint, (Table::Edges, [1, 1, 2, offices]), 15);
        refused(book, joint, (Table::Edges, [1, 1, 3, offices]), 15);
    }
}

fn without_nodes(book: &mut Book) {
    let nothing = ("no rows", &nothing());
    refused(book, nothing, (Table::Nodes, [0, 0, 0, 0]), 6);
    refused(book, nothing, (Table::Nodes, [1, 0, 0, 0]), 7);
    refused(book, nothing, (Table::Nodes, [1, 1, 0, 0]), 8);
    refused(book, nothing, (Table::Edges, [0, 0, 0, 0]), 11);
    for end in [0, 1, LAST] {
        refused(book, nothing, (Table::Edges, [1, end, 0, 1]), 12);
        refused(book, nothing, (Table::Edges, [3, 0, end, 1]), 12);
    }
}

/// 4 after every fault of the row and after 9 and 16, and before 25; the other table does
/// not count.
fn full_tables(book: &mut Book) {
    let full = full();
    let nodes = crowded(full.nodes.len(), 0);
    for sheet in [("a full sheet", &full), ("full nodes", &nodes)] {
        let [sort, number, ..] = sheet.1.nodes[0];
        refused(book, sheet, (Table::Nodes, [1, 1, 0, 1]), 4);
        refused(book, sheet, (Table::Nodes, [4, LAST, 0, 1]), 4);
        refused(book, sheet, (Table::Nodes, [5, 1, 0, 1]), 6);
        refused(book, sheet, (Table::Nodes, [1, 0, 0, 1]), 7);
        refused(book, sheet, (Table::Nodes, [1, 1, 0, 2]), 8);
        refused(book, sheet, (Table::Nodes, [sort, number, 0, 1]), 9);
    }
    let [kind, from, to, _] = full.edges[0];
    let (count, free) = (full.nodes.len() as u32, absent(&full));
    let full = ("a full sheet", &full);
    refused(book, full, (Table::Edges, free), 4);
    refused(book, full, (Table::Edges, [6, from, to, 1]), 11);
    refused(book, full, (Table::Edges, [kind, from, count, 1]), 12);
    refused(book, full, (Table::Edges, [1, from, to, 1]), 13);
    refused(book, full, (Table::Edges, [kind, from, from, 1]), 14);
    refused(book, full, (Table::Edges, [kind, from, to, 2]), 15);
    refused(book, full, (Table::Edges, [kind, from, to, 1]), 16);
}

/// A containment that a sheet of categories lacks.
fn absent(sheet: &Sheet) -> Row {
    let last = sheet.nodes.len() as u32 - 1;
    let mut free = (0..last).map(|from| [CONTAINED, from, last, 1]);
    free.find(|row| !sheet.edges.contains(row)).expect("not all are within the last")
}

/// Before the row, and at their own places.
fn bad_sheets(book: &mut Book) {
    for (name, words, (number, row)) in bad_versions_of_a() {
        for table in TABLES {
            for new in [[1, 13, 0, 1], [9, 0, 0, 0], [1, 11, 0, 1], [1, 0, 2, 1]] {
                book.not_added(&name, &words, (table, new), (number, 1, row));
            }
        }
    }
}
