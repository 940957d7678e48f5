//! Named cases of adding a row: the sheet that comes of it, row by row as the document
//! has it. What is refused stands in `addition_refusals`, what is searched in `positions`.

use crate::model::limits::{MOST_EDGES, MOST_NODES};
use crate::model::position::Table;
use crate::model::sheet::*;
use crate::named::book::{Asked, Book};
use crate::named::checks::{crowded, full};
use crate::named::joins::nothing;
use crate::named::sister::*;
use crate::named::{addition_refusals, positions};

pub fn all() -> Vec<Asked> {
    let mut book = Book::default();
    positions::add_all(&mut book);
    a_row_by_row(&mut book);
    sister_ships(&mut book);
    renumbered(&mut book);
    whatever_the_offices(&mut book);
    at_the_limits(&mut book);
    addition_refusals::add_all(&mut book);
    book.asked
}

/// Sheet A out of nothing, in the order of its rows.
fn a_row_by_row(book: &mut Book) {
    let (a, mut sheet) = (sheet_a(), nothing());
    for (at, row) in (0..).zip(&a.nodes) {
        let before = sheet.clone();
        sheet.nodes.push(*row);
        let name = format!("node {at} of A");
        book.added(&name, &before, (Table::Nodes, *row), (&sheet, at));
    }
    for (at, row) in (0..).zip(&a.edges) {
        let before = sheet.clone();
        sheet.edges.push(*row);
        let name = format!("edge {at} of A");
        book.added(&name, &before, (Table::Edges, *row), (&sheet, at));
    }
}

/// A becomes C. The joint lacks folio 41, and with it the last row but one: folio 42 is
/// then row 6.
fn sister_ships(book: &mut Book) {
    book.added("A becomes C", &sheet_a(), (Table::Edges, [3, 3, 5, 1]), (&sheet_c(), 4));
    let joint = joint_of_a_and_b();
    let mut without = joint.clone();
    without.edges.remove(3);
    let own = (Table::Edges, [3, 2, 5, 2]);
    book.added("B's own edge in the joint", &without, own, (&joint, 3));
    let mut lone = joint.clone();
    lone.edges.remove(6);
    let mut less = lone.clone();
    less.nodes.remove(6);
    less.edges[6] = [5, 5, 6, 3];
    book.added("folio 41 in the joint", &less, (Table::Nodes, [4, 41, 0, 1]), (&lone, 6));
    book.added("31/1 on 41 in the joint", &lone, (Table::Edges, [5, 4, 6, 1]), (&joint, 6));
}

/// Person 5 in category 6, which is within 8; 8 grants deed 9/1 on folio 3.
const NODES: [Row; 5] = [[1, 5, 0, 1], [2, 6, 0, 1], [2, 8, 0, 1], [3, 9, 1, 1], [4, 3, 0, 1]];
const EDGES: [Row; 4] = [[1, 0, 1, 1], [2, 1, 2, 1], [3, 2, 3, 1], [5, 3, 4, 1]];

/// The new node, its row, and the edges as they then are.
const MOVED: [(Row, usize, [Row; 4]); 8] = [
    ([1, 4, 0, 1], 0, [[1, 1, 2, 1], [2, 2, 3, 1], [3, 3, 4, 1], [5, 4, 5, 1]]),
    ([1, 6, 0, 1], 1, [[1, 0, 2, 1], [2, 2, 3, 1], [3, 3, 4, 1], [5, 4, 5, 1]]),
    ([2, 5, 0, 1], 1, [[1, 0, 2, 1], [2, 2, 3, 1], [3, 3, 4, 1], [5, 4, 5, 1]]),
    ([2, 7, 0, 1], 2, [[1, 0, 1, 1], [2, 1, 3, 1], [3, 3, 4, 1], [5, 4, 5, 1]]),
    ([3, 9, 0, 1], 3, [[1, 0, 1, 1], [2, 1, 2, 1], [3, 2, 4, 1], [5, 4, 5, 1]]),
    ([3, 9, 2, 1], 4, [[1, 0, 1, 1], [2, 1, 2, 1], [3, 2, 3, 1], [5, 3, 5, 1]]),
    ([4, 2, 0, 1], 4, [[1, 0, 1, 1], [2, 1, 2, 1], [3, 2, 3, 1], [5, 3, 5, 1]]),
    ([4, 4, 0, 1], 5, EDGES),
];

fn renumbered(book: &mut Book) {
    let sheet = Sheet::new(1, &NODES, &EDGES);
    for (row, at, edges) in MOVED {
        let mut after = Sheet::new(1, &NODES, &edges);
        after.nodes.insert(at, row);
        book.added("ends renumbered", &sheet, (Table::Nodes, row), (&after, at as u32));
    }
}

/// Every other row keeps its marks, and the sheet its office count.
fn whatever_the_offices(book: &mut Book) {
    let nodes = [[1, 5, 0, 3], [2, 6, 0, 2], [2, 8, 0, 3]];
    let sheet = Sheet::new(2, &nodes, &[[1, 0, 1, 2], [2, 1, 2, 2]]);
    for offices in 1..=3 {
        let mut after = Sheet::new(2, &nodes, &[[1, 0, 2, 2], [2, 2, 3, 2]]);
        after.nodes.insert(1, [2, 4, 0, offices]);
        let name = format!("a node of offices {offices}");
        book.added(&name, &sheet, (Table::Nodes, [2, 4, 0, offices]), (&after, 1));
        let mut after = sheet.clone();
        after.edges.insert(1, [1, 0, 2, offices]);
        let name = format!("an edge of offices {offices}");
        book.added(&name, &sheet, (Table::Edges, [1, 0, 2, offices]), (&after, 1));
    }
    let mut after = sheet.clone();
    after.edges.push([2, 2, 1, 2]);
    book.added(
        "an edge within its ends' offices",
        &sheet,
        (Table::Edges, [2, 2, 1, 2]),
        (&after, 2),
    );
    let one = Sheet::new(1, &[[2, 6, 0, 1], [2, 8, 0, 1]], &[[2, 1, 0, 1]]);
    let mut ring = one.clone();
    ring.edges.insert(0, [2, 0, 1, 1]);
    book.added("a ring is closed", &one, (Table::Edges, [2, 0, 1, 1]), (&ring, 0));
}

/// One row less than there may be, of each table, whether the other is full or not.
fn at_the_limits(book: &mut Book) {
    let full = full();
    let (node, edge) = (full.nodes[MOST_NODES - 1], full.edges[MOST_EDGES - 1]);
    let last = |count: usize| count as u32 - 1;
    let mut without = full.clone();
    without.edges.pop();
    let what = (Table::Edges, edge);
    book.added("the last edge of a full sheet", &without, what, (&full, last(MOST_EDGES)));
    let mut few = crowded(MOST_NODES, 9);
    let more = few.clone();
    few.nodes.pop();
    book.added("the last node", &few, (Table::Nodes, node), (&more, last(MOST_NODES)));
    let mut first = few.clone();
    first.nodes.insert(0, [1, 1, 0, 1]);
    first.edges.iter_mut().for_each(|row| (row[1], row[2]) = (row[1] + 1, row[2] + 1));
    book.added("the last free node, in front", &few, (Table::Nodes, [1, 1, 0, 1]), (&first, 0));
    let lone = crowded(MOST_NODES - 1, MOST_EDGES);
    let mut whole = lone.clone();
    whole.nodes.push(node);
    book.added("a node beside full edges", &lone, (Table::Nodes, node), (&whole, last(MOST_NODES)));
}
