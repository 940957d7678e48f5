//! Named cases of question 10 on member edges, at offices with a ban row and without:
//! request 2026-02, its own case first. Rows are counted from 0.

use crate::model::marks::{all_marks, mark_of};
use crate::model::sheet::*;
use crate::named::book::Book;

pub fn add_all(book: &mut Book) {
    the_request(book);
    the_other_office(book);
    unused_bans(book);
    lines(book);
    forks(book);
    rings(book);
    another_person(book);
}

/// Person 11, categories 21 to 25 (rows 1 to 5), deed 31/1 (row 6), which applies to
/// folio 41 (row 7). All rows but the applies row, which is the last, are given.
fn sheet(edges: &[Row]) -> Sheet {
    let mut nodes = vec![[1, 11, 0, 1]];
    nodes.extend((21..=25).map(|number| [2, number, 0, 1]));
    nodes.extend([[3, 31, 1, 1], [4, 41, 0, 1]]);
    let mut edges = [edges, &[[5, 6, 7, 1]]].concat();
    edges.sort();
    Sheet { office_count: 1, nodes, edges }
}

/// Person 11 is a member of the category of this number.
fn member(category: u32) -> Row {
    [1, 0, category - 20, 1]
}

/// One is within the other.
fn within(low: u32, high: u32) -> Row {
    [2, low - 20, high - 20, 1]
}

fn ban(category: u32) -> Row {
    [4, category - 20, 6, 1]
}

/// The same rows without a ban, and with one of each category in turn.
fn listed(book: &mut Book, name: &str, edges: &[Row], without: &[u32], with: &[u32]) {
    book.found(&format!("{name}, no ban"), &sheet(edges), &[10, 1], without);
    for category in 21..=25 {
        let name = format!("{name}, a ban of {category}");
        book.found(&name, &sheet(&[edges, &[ban(category)]].concat()), &[10, 1], with);
    }
}

/// 11 in 21 and 22, 21 within 22, a ban on 22.
fn of_the_request() -> Vec<Row> {
    vec![member(21), member(22), within(21, 22)]
}

fn the_request(book: &mut Book) {
    listed(book, "the request's own case", &of_the_request(), &[1], &[]);
}

/// The ban row is the other office's alone, and nothing else is.
fn the_other_office(book: &mut Book) {
    let mut sheet = sheet(&[&of_the_request()[..], &[ban(22)]].concat());
    sheet.office_count = 2;
    sheet.nodes.iter_mut().chain(&mut sheet.edges).for_each(|row| row[3] = all_marks(2));
    book.found("the ban at both offices, asked at 1", &sheet, &[10, 1], &[]);
    for office in [1, 2] {
        // The ban row is row 3.
        sheet.edges[3][3] = mark_of(office);
        let name = |asked: u32| format!("the ban at office {office} alone, asked at {asked}");
        book.found(&name(office), &sheet, &[10, office], &[]);
        book.found(&name(3 - office), &sheet, &[10, 3 - office], &[1]);
    }
}

/// A ban row counts whether a path uses it or not.
fn unused_bans(book: &mut Book) {
    let edges = [&of_the_request()[..], &[ban(22)]].concat();
    let mut no_folio = sheet(&edges);
    no_folio.edges.pop();
    book.found("the ban's deed has no folio", &no_folio, &[10, 1], &[]);
    let mut no_row = no_folio.clone();
    no_row.edges.pop();
    book.found("neither a ban nor a folio", &no_row, &[10, 1], &[1]);
    let granted = sheet(&[&of_the_request()[..], &[[3, 2, 6, 1]]].concat());
    book.found("a grant and no ban", &granted, &[10, 1], &[1]);
}

fn lines(book: &mut Book) {
    let (up, on) = (within(21, 22), within(22, 23));
    let three = [member(21), member(22), member(23), up, on];
    listed(book, "in 21 within 22 within 23", &three, &[1, 2], &[1]);
    let far = [member(21), member(23), member(25), up, on, within(23, 24), within(24, 25)];
    listed(book, "every second of a line of five", &far, &[1, 2], &[1]);
    let all: Vec<Row> = (21..=25).map(member).collect();
    let steps = [up, on, within(23, 24), within(24, 25)];
    listed(book, "all of a line of five", &[&all[..], &steps].concat(), &[1, 2, 3, 4], &[1, 2, 3]);
    listed(book, "the ends of a line", &[member(21), member(23), up, on], &[1], &[]);
}

fn forks(book: &mut Book) {
    let all = [member(21), member(22), member(23)];
    let into_one = [&all[..], &[within(21, 23), within(22, 23)]].concat();
    listed(book, "two contained and none containing", &into_one, &[2], &[]);
    let out_of_one = [&all[..], &[within(21, 22), within(21, 23)]].concat();
    listed(book, "two containing and none contained", &out_of_one, &[1, 2], &[]);
    let apart = [member(21), member(22), within(21, 23), within(22, 23)];
    listed(book, "two within a third", &apart, &[], &[]);
}

fn rings(book: &mut Book) {
    let ring = [within(21, 22), within(22, 21)];
    let two = [&[member(21), member(22)][..], &ring].concat();
    listed(book, "two of a ring of two", &two, &[0, 1], &[0, 1]);
    listed(book, "one of a ring of two", &[&[member(21)][..], &ring].concat(), &[], &[]);
    let of_three = [within(21, 22), within(22, 23), within(23, 21)];
    let some = [&[member(21), member(23)][..], &of_three].concat();
    listed(book, "two of a ring of three", &some, &[0, 1], &[0, 1]);
    // The own category does not count: 22 is on a ring with 23, where 11 is not.
    let aside = [within(22, 23), within(23, 22)];
    let below = [&[member(21), member(22), within(21, 22)][..], &aside].concat();
    listed(book, "into a ring without the other", &below, &[1], &[]);
    let above = [&[member(22), member(24), within(22, 24)][..], &aside].concat();
    listed(book, "out of a ring without the other", &above, &[1], &[]);
    // In a ring the two may be one, and below it and above it not.
    let through = [
        &[member(21), member(22), member(23), member(24), within(21, 22), within(23, 24)][..],
        &aside,
    ]
    .concat();
    listed(book, "into a ring, both of it, and out", &through, &[1, 2, 3], &[1, 2]);
}

/// What the other person is a member of does not count.
fn another_person(book: &mut Book) {
    let nodes =
        [[1, 11, 0, 1], [1, 12, 0, 1], [2, 21, 0, 1], [2, 22, 0, 1], [2, 23, 0, 1], [3, 31, 1, 1]];
    let steps = [[2, 2, 3, 1], [2, 3, 4, 1], [4, 4, 5, 1]];
    let with = |members: &[Row]| Sheet::new(1, &nodes, &[members, &steps].concat());
    let apart = with(&[[1, 0, 3, 1], [1, 1, 2, 1], [1, 1, 4, 1]]);
    book.found("12 in the contained and the containing one", &apart, &[10, 1], &[]);
    let split = with(&[[1, 0, 2, 1], [1, 0, 3, 1], [1, 1, 4, 1]]);
    book.found("12 in the containing one", &split, &[10, 1], &[]);
    let both = with(&[[1, 0, 2, 1], [1, 0, 3, 1], [1, 0, 4, 1], [1, 1, 3, 1], [1, 1, 4, 1]]);
    book.found("11 in all three and 12 in two", &both, &[10, 1], &[1]);
}
