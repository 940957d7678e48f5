//! Named cases of searching for a row: whether it stands, and how many rows name
//! something lower.

use crate::model::limits::{MOST_EDGES, MOST_NODES};
use crate::model::position::{Key, Table, TABLES};
use crate::model::sheet::*;
use crate::named::book::Book;
use crate::named::checks::full;
use crate::named::joins::nothing;
use crate::named::lookups::bad_versions_of_a;
use crate::named::sister::*;

pub fn add_all(book: &mut Book) {
    nodes_of_a(book);
    edges_of_a(book);
    other_sister_ships(book);
    no_rows(book);
    one_row(book);
    whatever_the_offices(book);
    deeds(book);
    full_sheets(book);
    bad_sheets(book);
}

const LAST: u32 = u32::MAX;

/// Persons 11 and 12, categories 21 and 22, deeds 31/1 and 31/2, folios 41 and 42: rows 0
/// to 7.
const NODES_OF_A: [(Key, bool, u32); 29] = [
    ([1, 11, 0], true, 0),
    ([1, 12, 0], true, 1),
    ([2, 21, 0], true, 2),
    ([2, 22, 0], true, 3),
    ([3, 31, 1], true, 4),
    ([3, 31, 2], true, 5),
    ([4, 41, 0], true, 6),
    ([4, 42, 0], true, 7),
    ([1, 10, 0], false, 0),
    ([1, 13, 0], false, 2),
    ([2, 1, 0], false, 2),
    ([2, 23, 0], false, 4),
    ([3, 30, LAST], false, 4),
    ([3, 31, 0], false, 4),
    ([3, 31, 3], false, 6),
    ([3, 32, 0], false, 6),
    ([4, 40, 0], false, 6),
    ([4, 43, 0], false, 8),
    ([0, 0, 0], false, 0),
    ([0, 11, 0], false, 0),
    ([0, LAST, LAST], false, 0),
    ([1, 0, 0], false, 0),
    ([1, 11, 1], false, 1),
    ([2, 21, LAST], false, 3),
    ([4, 42, 1], false, 8),
    ([5, 1, 0], false, 8),
    ([257, 11, 0], false, 8),
    ([0x8000_0001, 11, 0], false, 8),
    ([LAST, LAST, LAST], false, 8),
];

fn nodes_of_a(book: &mut Book) {
    let a = sheet_a().words();
    for (key, there, row) in NODES_OF_A {
        book.stands("a node of A", &a, Table::Nodes, key, (there, row));
    }
}

/// 1,0,2 1,1,3 2,2,3 3,3,4 4,2,5 5,4,6 5,5,7: rows 0 to 6.
const EDGES_OF_A: [(Key, bool, u32); 29] = [
    ([1, 0, 2], true, 0),
    ([1, 1, 3], true, 1),
    ([2, 2, 3], true, 2),
    ([3, 3, 4], true, 3),
    ([4, 2, 5], true, 4),
    ([5, 4, 6], true, 5),
    ([5, 5, 7], true, 6),
    ([1, 0, 1], false, 0),
    ([1, 0, 3], false, 1),
    ([1, 1, 2], false, 1),
    ([1, 1, 4], false, 2),
    ([1, 2, 0], false, 2),
    ([2, 3, 2], false, 3),
    ([2, 2, 2], false, 2),
    ([3, 2, 5], false, 3),
    ([3, 3, 5], false, 4),
    ([4, 0, 0], false, 4),
    ([4, 3, 4], false, 5),
    ([5, 5, 8], false, 7),
    ([5, 8, 8], false, 7),
    ([0, 0, 0], false, 0),
    ([0, LAST, LAST], false, 0),
    ([1, LAST, 0], false, 2),
    ([3, 3, LAST], false, 4),
    ([3, LAST, 0], false, 4),
    ([2, 0x4000_0002, 3], false, 3),
    ([6, 0, 0], false, 7),
    ([257, 0, 2], false, 7),
    ([LAST, LAST, LAST], false, 7),
];

fn edges_of_a(book: &mut Book) {
    let a = sheet_a().words();
    for (key, there, row) in EDGES_OF_A {
        book.stands("an edge of A", &a, Table::Edges, key, (there, row));
    }
}

fn other_sister_ships(book: &mut Book) {
    let (b, c, joint) = (sheet_b().words(), sheet_c().words(), joint_of_a_and_b().words());
    for (key, there, row) in [([1, 12, 0], false, 1), ([3, 31, 2], true, 2), ([4, 41, 0], false, 3)]
    {
        book.stands("a node of B", &b, Table::Nodes, key, (there, row));
    }
    book.stands("an edge of B", &b, Table::Edges, [4, 1, 2], (false, 2));
    book.stands("an edge of C", &c, Table::Edges, [3, 3, 5], (true, 4));
    book.stands("an edge of C", &c, Table::Edges, [4, 2, 5], (true, 5));
    book.stands("a node of the joint", &joint, Table::Nodes, [1, 10, 0], (false, 0));
    book.stands("a node of the joint", &joint, Table::Nodes, [4, 43, 0], (false, 8));
    book.stands("an edge of the joint", &joint, Table::Edges, [1, 0, 1], (false, 0));
    book.stands("an edge of the joint", &joint, Table::Edges, [5, 5, 8], (false, 8));
    book.stands("an edge of the joint", &joint, Table::Edges, [3, 2, 5], (true, 3));
    book.stands("an edge of the joint", &joint, Table::Edges, [3, 2, 4], (false, 3));
    book.stands("an edge of the joint", &joint, Table::Edges, [3, 3, 5], (false, 5));
}

fn no_rows(book: &mut Book) {
    let (empty, nodes) = (nothing().words(), Sheet::new(2, &[[2, 7, 0, 1]], &[]).words());
    let joint = Sheet::new(2, &[], &[]).words();
    for key in [[0, 0, 0], [1, 1, 0], [3, 7, 7], [LAST, LAST, LAST]] {
        for table in TABLES {
            book.stands("no rows", &empty, table, key, (false, 0));
            book.stands("no rows, two offices", &joint, table, key, (false, 0));
        }
        book.stands("no edges", &nodes, Table::Edges, key, (false, 0));
    }
}

/// The only row of its table.
fn one_row(book: &mut Book) {
    for count in [1, 2] {
        let words = Sheet::new(count, &[[2, 7, 0, 1]], &[]).words();
        let name = format!("the only node, {count} offices");
        book.stands(&name, &words, Table::Nodes, [2, 7, 0], (true, 0));
        let words = Sheet::new(count, &[[2, 7, 0, 1], [2, 8, 0, 1]], &[[2, 1, 0, 1]]).words();
        let name = format!("the only edge, {count} offices");
        book.stands(&name, &words, Table::Edges, [2, 1, 0], (true, 0));
    }
}

/// A row of either office, or of both, is there.
fn whatever_the_offices(book: &mut Book) {
    for offices in 1..=3 {
        let nodes = [[1, 5, 0, 3], [2, 6, 0, 3]].map(|[a, b, c, _]| [a, b, c, offices]);
        let words = Sheet::new(2, &nodes, &[[1, 0, 1, offices]]).words();
        let name = |row: &str| format!("a {row} of offices {offices}");
        book.stands(&name("node"), &words, Table::Nodes, [2, 6, 0], (true, 1));
        book.stands(&name("node"), &words, Table::Nodes, [2, 5, 0], (false, 1));
        book.stands(&name("edge"), &words, Table::Edges, [1, 0, 1], (true, 0));
        book.stands(&name("edge"), &words, Table::Edges, [1, 1, 0], (false, 1));
    }
}

/// Numbers and variants at the ends of their range, compared as they are and in order.
fn deeds(book: &mut Book) {
    let rows = [[3, 1, LAST, 1], [3, 2, 0, 1], [3, 0x8000_0000, 0, 1], [3, LAST, LAST, 1]];
    let words = Sheet::new(1, &rows, &[]).words();
    for (key, there, row) in [
        ([3, 1, LAST], true, 0),
        ([3, 1, 0], false, 0),
        ([3, 2, 0], true, 1),
        ([3, 2, 1], false, 2),
        ([3, 0x7FFF_FFFF, LAST], false, 2),
        ([3, 0x8000_0000, 0], true, 2),
        ([3, LAST, 0], false, 3),
        ([3, LAST, LAST], true, 3),
    ] {
        book.stands("deeds", &words, Table::Nodes, key, (there, row));
    }
}

/// Its first and last rows, and what would stand before and behind all.
fn full_sheets(book: &mut Book) {
    let sheet = full();
    let words = sheet.words();
    let key = |row: Row| [row[0], row[1], row[2]];
    for (table, rows, most) in
        [(Table::Nodes, &sheet.nodes, MOST_NODES), (Table::Edges, &sheet.edges, MOST_EDGES)]
    {
        let most = most as u32;
        book.stands("the first of a full table", &words, table, key(rows[0]), (true, 0));
        let last = key(rows[rows.len() - 1]);
        book.stands("the last of a full table", &words, table, last, (true, most - 1));
        book.stands("before a full table", &words, table, [0, 0, 0], (false, 0));
        book.stands("behind a full table", &words, table, [LAST, 0, 0], (false, most));
    }
}

fn bad_sheets(book: &mut Book) {
    for (name, words, says) in bad_versions_of_a() {
        for table in TABLES {
            book.not_searched(&name, &words, table, says);
        }
    }
}
