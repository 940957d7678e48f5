//! Named cases of edges removed: what question 10 lists, and what question 1 answers
//! of person 11, deed 31 and folio 41 before and after. First the request's own case,
//! then the smallest sheets on which two edges are listed and may not both go.

use crate::model::sheet::*;
use crate::named::book::{Asked, Book};

pub fn all() -> Vec<Asked> {
    let mut book = Book::default();
    the_request(&mut book);
    two_memberships(&mut book);
    two_rights(&mut book);
    book.asked
}

/// Person 11, categories 21 and 22, deed 31/1, folio 41.
const NODES: [Row; 5] = [[1, 11, 0, 1], [2, 21, 0, 1], [2, 22, 0, 1], [3, 31, 1, 1], [4, 41, 0, 1]];

fn answered(book: &mut Book, name: &str, edges: &[Row], value: u32) {
    book.answer(name, &Sheet::new(1, &NODES, edges), [1, 11, 31, 41], value);
}

/// The membership of 22, row 1, which the old rule listed, and which leads to the ban.
fn the_request(book: &mut Book) {
    let edges = [[1, 0, 1, 1], [1, 0, 2, 1], [2, 1, 2, 1], [4, 2, 3, 1], [5, 3, 4, 1]];
    book.found("a ban on 22", &Sheet::new(1, &NODES, &edges), &[10, 1], &[]);
    answered(book, "a ban on 22", &edges, 2);
    let [first, _, step, ban, applies] = edges;
    answered(book, "the ban on 22 is lost", &[first, step, ban, applies], 0);
}

/// Two rows are listed, each by the other. Either may go, but not both.
fn pair(book: &mut Book, name: &str, edges: [Row; 6], listed: [usize; 2], value: u32) {
    let (sheet, rows) = (Sheet::new(1, &NODES, &edges), listed.map(|row| row as u32));
    book.found(&format!("{name}: both are listed"), &sheet, &[10, 1], &rows);
    let without = |gone: &[usize]| {
        let kept = edges.iter().enumerate().filter(|(row, _)| !gone.contains(row));
        kept.map(|(_, row)| *row).collect::<Vec<Row>>()
    };
    answered(book, &format!("{name}: neither is gone"), &edges, value);
    for row in listed {
        answered(book, &format!("{name}: row {row} is gone"), &without(&[row]), value);
    }
    answered(book, &format!("{name}: both are gone"), &without(&listed), 0);
}

fn two_memberships(book: &mut Book) {
    for (kind, name, value) in [(3, "a grant", 1), (4, "a ban", 2)] {
        let [one, other] = [[1, 0, 1, 1], [1, 0, 2, 1]];
        let edges = [one, other, [2, 1, 2, 1], [2, 2, 1, 1], [kind, 1, 3, 1], [5, 3, 4, 1]];
        pair(book, &format!("two memberships and {name}"), edges, [0, 1], value);
    }
}

fn two_rights(book: &mut Book) {
    for (kind, name, value) in [(3, "grants", 1), (4, "bans", 2)] {
        let [one, other] = [[kind, 1, 3, 1], [kind, 2, 3, 1]];
        let edges = [[1, 0, 1, 1], [2, 1, 2, 1], [2, 2, 1, 1], one, other, [5, 3, 4, 1]];
        pair(book, &format!("a membership and two {name}"), edges, [3, 4], value);
    }
}
