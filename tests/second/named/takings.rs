//! Named cases of taking an office out of a sheet.

use crate::model::marks::next_office;
use crate::model::sheet::*;
use crate::named::book::Book;
use crate::named::checks;
use crate::named::joins::{marked, nothing};
use crate::named::lookups::bad_versions_of_a;
use crate::named::sister::*;

pub fn add_all(book: &mut Book) {
    sister_ships(book);
    left_out(book);
    edges_of_the_other(book);
    renumbered(book);
    all_and_nothing(book);
    full(book);
    offices(book);
    bad_sheets(book);
}

/// What was joined comes back.
fn sister_ships(book: &mut Book) {
    let (a, b, c, joint) = (sheet_a(), sheet_b(), sheet_c(), joint_of_a_and_b());
    book.taken_out("the joint, office 1 is A", &joint, 1, &a);
    book.taken_out("the joint, office 2 is B", &joint, 2, &b);
    for (name, sheet) in [("A", &a), ("B", &b), ("C", &c)] {
        book.taken_out(&format!("office 1 of {name} is {name}"), sheet, 1, sheet);
        let twice = marked(sheet, 2, 3);
        for office in [1, 2] {
            book.taken_out(&format!("{name} in both, office {office}"), &twice, office, sheet);
        }
    }
}

/// One node for each mark, of each type.
fn left_out(book: &mut Book) {
    for sort in PERSON..=FOLIO {
        let nodes = [[sort, 1, 0, 1], [sort, 2, 0, 2], [sort, 3, 0, 3]];
        let sheet = Sheet::new(2, &nodes, &[]);
        let kept = |numbers: [u32; 2]| Sheet::new(1, &numbers.map(|it| [sort, it, 0, 1]), &[]);
        book.taken_out(&format!("type {sort}, office 1"), &sheet, 1, &kept([1, 3]));
        book.taken_out(&format!("type {sort}, office 2"), &sheet, 2, &kept([2, 3]));
    }
    let deeds = Sheet::new(2, &[[3, 5, 0, 2], [3, 5, 1, 1], [3, 5, 2, 3]], &[]);
    let one = Sheet::new(1, &[[3, 5, 1, 1], [3, 5, 2, 1]], &[]);
    book.taken_out("deeds by variant, office 1", &deeds, 1, &one);
    let two = Sheet::new(1, &[[3, 5, 0, 1], [3, 5, 2, 1]], &[]);
    book.taken_out("deeds by variant, office 2", &deeds, 2, &two);
}

/// Both ends stay, and an edge that only the other office has does not.
fn edges_of_the_other(book: &mut Book) {
    let nodes = [[1, 1, 0, 3], [2, 1, 0, 3], [2, 2, 0, 3], [3, 1, 0, 3], [4, 1, 0, 3]];
    let own = nodes.map(|[a, b, c, _]| [a, b, c, 1]);
    let all = [[1, 0, 1], [2, 1, 2], [3, 1, 3], [4, 1, 3], [5, 3, 4]];
    for marks in [[1, 2, 1, 2, 1], [2, 1, 2, 1, 2], [1, 1, 3, 2, 2], [2, 2, 2, 2, 2]] {
        let edges: Vec<Row> = all.iter().zip(marks).map(|(&[a, b, c], d)| [a, b, c, d]).collect();
        let sheet = Sheet::new(2, &nodes, &edges);
        for office in [1, 2] {
            let kept = edges.iter().filter(|row| row[3] == office || row[3] == 3);
            let kept: Vec<Row> = kept.map(|&[a, b, c, _]| [a, b, c, 1]).collect();
            let name = format!("edges of {marks:?}, office {office}");
            book.taken_out(&name, &sheet, office, &Sheet::new(1, &own, &kept));
        }
    }
}

/// Rows before an end go, and it moves up.
fn renumbered(book: &mut Book) {
    let nodes = [
        [1, 1, 0, 2],
        [1, 2, 0, 3],
        [2, 1, 0, 2],
        [2, 2, 0, 1],
        [2, 3, 0, 3],
        [3, 1, 7, 2],
        [3, 1, 8, 3],
        [4, 9, 0, 1],
    ];
    let edges = [
        [1, 0, 2, 2],
        [1, 1, 3, 1],
        [1, 1, 4, 3],
        [2, 2, 4, 2],
        [2, 3, 4, 1],
        [3, 4, 6, 3],
        [4, 4, 5, 2],
        [5, 6, 7, 1],
    ];
    let sheet = Sheet::new(2, &nodes, &edges);
    let one = Sheet::new(
        1,
        &[[1, 2, 0, 1], [2, 2, 0, 1], [2, 3, 0, 1], [3, 1, 8, 1], [4, 9, 0, 1]],
        &[[1, 0, 1, 1], [1, 0, 2, 1], [2, 1, 2, 1], [3, 2, 3, 1], [5, 3, 4, 1]],
    );
    book.taken_out("ends renumbered, office 1", &sheet, 1, &one);
    let two = Sheet::new(
        1,
        &[[1, 1, 0, 1], [1, 2, 0, 1], [2, 1, 0, 1], [2, 3, 0, 1], [3, 1, 7, 1], [3, 1, 8, 1]],
        &[[1, 0, 2, 1], [1, 1, 3, 1], [2, 2, 3, 1], [3, 3, 5, 1], [4, 3, 4, 1]],
    );
    book.taken_out("ends renumbered, office 2", &sheet, 2, &two);
}

fn all_and_nothing(book: &mut Book) {
    let a = sheet_a();
    for office in [1, 2] {
        let own = marked(&a, 2, office);
        book.taken_out(&format!("all of it is office {office}'s"), &own, office, &a);
        let other = next_office(office, 2);
        book.taken_out(&format!("nothing of it is office {other}'s"), &own, other, &nothing());
        let empty = Sheet::new(2, &[], &[]);
        book.taken_out(&format!("nothing at all, office {office}"), &empty, office, &nothing());
    }
    book.taken_out("nothing of one office", &nothing(), 1, &nothing());
}

fn full(book: &mut Book) {
    let full = checks::full();
    book.taken_out("a full sheet of one office", &full, 1, &full);
    book.taken_out("a full sheet of both, office 1", &marked(&full, 2, 3), 1, &full);
    book.taken_out("a full sheet of both, office 2", &marked(&full, 2, 3), 2, &full);
    let own = marked(&full, 2, 1);
    book.taken_out("a full sheet of the other office", &own, 2, &nothing());
}

fn offices(book: &mut Book) {
    let (a, joint) = (sheet_a().words(), joint_of_a_and_b().words());
    for office in [0, 2, 3, 4, 257, 0x8000_0001, u32::MAX] {
        book.not_taken_out(&format!("office {office} of A"), &a, office, (20, 0, 0));
    }
    for office in [0, 3, 4, 257, 258, 0x8000_0001, u32::MAX] {
        book.not_taken_out(&format!("office {office} of the joint"), &joint, office, (20, 0, 0));
    }
    let empty = Sheet::new(1, &[], &[]).words();
    book.not_taken_out("office 2 of nothing", &empty, 2, (20, 0, 0));
}

/// Before the office.
fn bad_sheets(book: &mut Book) {
    for (name, words, (number, row)) in bad_versions_of_a() {
        for office in [1, 9] {
            let name = format!("{name}, office {office}");
            book.not_taken_out(&name, &words, office, (number, 1, row));
        }
    }
}
