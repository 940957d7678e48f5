//! Named cases about the refusals of questions 1 to 4, their order, and the
//! joint rules in full.

use crate::model::answer::{ANSWER, JOINT, LISTED, WITNESS};
use crate::model::limits::{HEADER, MOST_NODES, MOST_OFFICES};
use crate::model::marks::next_office;
use crate::model::sheet::*;
use crate::named::book::Book;
use crate::named::sister::*;

pub fn add_all(book: &mut Book) {
    order_at_an_office(book);
    order_of_a_joint_answer(book);
    offices(book);
    other_office_alone(book);
    other_types(book);
    lists_never_refuse(book);
    sheet_first(book);
    no_rows(book);
    joint_rules(book);
}

/// Each unknown alone and with every later one.
fn order_at_an_office(book: &mut Book) {
    let a = sheet_a();
    let asks = [
        ([9, 9, 9, 9], 20),
        ([9, 11, 31, 41], 20),
        ([1, 9, 9, 9], 21),
        ([1, 9, 31, 9], 21),
        ([1, 9, 31, 41], 21),
        ([1, 11, 9, 9], 22),
        ([1, 11, 9, 41], 22),
        ([1, 11, 31, 9], 23),
    ];
    for (ask, number) in asks {
        let [office, person, deed, folio] = ask;
        let name = format!("{ask:?} of sheet A");
        book.refused(&name, &a, ANSWER, &ask, number);
        for kind in [0, 1] {
            let name = format!("{name}, kind {kind}");
            book.refused(&name, &a, WITNESS, &[office, kind, person, deed, folio], number);
        }
    }
    // Known, but with no path, and no room either.
    book.refused("no path before no room", &a, WITNESS, &[1, 0, 12, 31, 42], 26);
    book.refused("no room", &a, WITNESS, &[1, 0, 12, 31, 41], 25);
}

fn order_of_a_joint_answer(book: &mut Book) {
    let joint = joint_of_a_and_b();
    for rule in [0, 4, 255, 257, 0x8000_0001, u32::MAX] {
        let name = format!("rule {rule}");
        book.refused(&name, &joint, JOINT, &[rule, 11, 31, 42], 27);
        book.refused(&format!("{name}, all unknown"), &joint, JOINT, &[rule, 9, 9, 9], 27);
        book.refused(&format!("{name} of one office"), &sheet_a(), JOINT, &[rule, 11, 31, 41], 27);
    }
    for rule in 1..=3 {
        let asks = [
            ([rule, 9, 9, 9], 21),
            ([rule, 9, 31, 41], 21),
            ([rule, 11, 9, 9], 22),
            ([rule, 11, 9, 41], 22),
            ([rule, 11, 31, 9], 23),
        ];
        for (ask, number) in asks {
            book.refused(&format!("{ask:?} of the joint"), &joint, JOINT, &ask, number);
        }
    }
}

fn offices(book: &mut Book) {
    let (a, joint) = (sheet_a(), joint_of_a_and_b());
    for (sheet, name, bad) in [(&a, "A", [0, 2, 3, 257]), (&joint, "the joint", [0, 3, 4, 258])] {
        for office in bad.into_iter().chain([0x8000_0001, u32::MAX]) {
            let name = format!("office {office} of {name}");
            book.refused(&name, sheet, ANSWER, &[office, 11, 31, 42], 20);
            book.refused(&name, sheet, WITNESS, &[office, 1, 11, 31, 42], 20);
            book.refused(&name, sheet, LISTED, &[office, 1, 11, 31, 42], 20);
        }
    }
}

/// Person 1, deed 1, folio 1 at one office each or at both; no edge.
fn known_at(person: u32, deed: u32, folio: u32) -> Sheet {
    let nodes = [[1, 1, 0, person], [2, 1, 0, 3], [3, 1, 5, deed], [4, 1, 0, folio]];
    Sheet::new(2, &nodes, &[])
}

fn other_office_alone(book: &mut Book) {
    for office in [1, 2] {
        let other = next_office(office, 2);
        let cases = [
            ("a person", known_at(other, 3, 3), 21),
            ("a deed", known_at(3, other, 3), 22),
            ("a folio", known_at(3, 3, other), 23),
            ("a person and a deed", known_at(other, other, 3), 21),
            ("a deed and a folio", known_at(3, other, other), 22),
        ];
        for (what, sheet, number) in cases {
            let name = format!("{what} known at office {other} alone");
            book.refused(&name, &sheet, ANSWER, &[office, 1, 1, 1], number);
            book.refused(&name, &sheet, WITNESS, &[office, 0, 1, 1, 1], number);
            let list = [1, 0, 1, 0, 1, 5, 1, 0];
            book.listed(&name, &sheet, [office, 0, 1, 1, 1], &list, false);
            book.joint(&name, &sheet, [office, 1, 1, 1], (0, 0));
        }
    }
    for rule in 1..=3 {
        let name = format!("each known to another office, rule {rule}");
        book.joint(&name, &known_at(1, 2, 1), [rule, 1, 1, 1], (0, 0));
    }
    let nodes = [[1, 1, 0, 3], [3, 1, 5, 1], [3, 1, 6, 2], [4, 1, 0, 3]];
    let variants = Sheet::new(2, &nodes, &[]);
    for office in [1, 2] {
        let name = format!("another variant at each office, office {office}");
        book.answer(&name, &variants, [office, 1, 1, 1], 0);
        book.no_path(&name, &variants, [office, 0, 1, 1, 1]);
    }
}

/// A number is known as what it is asked for, or not at all.
fn other_types(book: &mut Book) {
    let a = sheet_a();
    for person in [0, 21, 31, 41, u32::MAX] {
        let name = format!("{person} as a person");
        book.refused(&name, &a, ANSWER, &[1, person, 31, 41], 21);
        book.refused(&name, &a, JOINT, &[1, person, 31, 41], 21);
    }
    for deed in [0, 1, 2, 11, 21, 41, u32::MAX] {
        let name = format!("{deed} as a deed");
        book.refused(&name, &a, ANSWER, &[1, 11, deed, 41], 22);
        book.refused(&name, &a, JOINT, &[1, 11, deed, 41], 22);
    }
    for folio in [0, 11, 21, 31, u32::MAX] {
        let name = format!("{folio} as a folio");
        book.refused(&name, &a, ANSWER, &[1, 11, 31, folio], 23);
        book.refused(&name, &a, JOINT, &[1, 11, 31, folio], 23);
    }
}

fn lists_never_refuse(book: &mut Book) {
    let a = sheet_a();
    let path = [11, 0, 21, 0, 22, 0, 31, 1, 41, 0];
    book.listed("all unknown, no list", &a, [1, 0, 9, 9, 9], &[], false);
    book.listed("all 0, no list", &a, [1, 0, 0, 0, 0], &[], false);
    book.listed("all 0, a list of 0", &a, [1, 0, 0, 0, 0], &[0; 8], false);
    book.listed("no list", &a, [1, 0, 11, 31, 41], &[], false);
    book.listed("an unknown person with a path", &a, [1, 0, 9, 31, 41], &path, false);
    let strange = [11, 0, 21, 0, 99, 0, 31, 1, 41, 0];
    book.listed("an unknown category", &a, [1, 0, 11, 31, 41], &strange, false);
}

/// Whatever else is wrong, the sheet's own fault comes first, at its place.
fn sheet_first(book: &mut Book) {
    let a = sheet_a().words();
    // Where, the word put there, and the number and row that follow.
    let faults: [(usize, u32, u32, u32); 14] = [
        (0, 2, 2, 0),
        (1, MOST_OFFICES + 1, 3, 0),
        (2, MOST_NODES as u32 + 1, 4, 0),
        (4, 7, 5, 0),
        (34, 5, 6, 7),
        (35, 0, 7, 7),
        (37, 0, 8, 7),
        (35, 41, 9, 7),
        (35, 40, 10, 7),
        (62, 6, 11, 6),
        (63, 8, 12, 6),
        (63, 0, 13, 6),
        (48, 2, 14, 2),
        (65, 0, 15, 6),
    ];
    for operation in ANSWER..=LISTED {
        for (at, word, number, row) in faults {
            let mut words = a.clone();
            words[at] = word;
            let name = format!("word {at} of sheet A is {word}");
            book.bad_sheet(&name, &words, operation, (number, row));
        }
        book.bad_sheet("no words", &[], operation, (1, 0));
        book.bad_sheet("5 words", &a[..HEADER - 1], operation, (1, 0));
        let mut equal = a.clone();
        equal.copy_within(58..62, 62);
        book.bad_sheet("the last edge twice", &equal, operation, (16, 6));
        let mut fallen = a.clone();
        fallen.copy_within(38..42, 62);
        book.bad_sheet("the first edge again", &fallen, operation, (17, 6));
    }
}

fn no_rows(book: &mut Book) {
    let (one, two) = (Sheet::new(1, &[], &[]), Sheet::new(2, &[], &[]));
    for (sheet, name) in [(&one, "zero nodes"), (&two, "zero nodes of two offices")] {
        book.refused(name, sheet, ANSWER, &[1, 1, 1, 1], 21);
        book.refused(name, sheet, JOINT, &[3, 1, 1, 1], 21);
        book.refused(name, sheet, WITNESS, &[1, 0, 1, 1, 1], 21);
        book.listed(name, sheet, [1, 0, 1, 1, 1], &[1, 0, 1, 0, 1, 0, 1, 0], false);
    }
    let nodes = [[1, 1, 0, 1], [3, 1, 0, 1], [4, 1, 0, 1]];
    let edgeless = Sheet::new(1, &nodes, &[]);
    book.answer("three nodes and no edge", &edgeless, [1, 1, 1, 1], 0);
    book.joint("three nodes and no edge", &edgeless, [1, 1, 1, 1], (0, 0));
    book.no_path("three nodes and no edge", &edgeless, [1, 0, 1, 1, 1]);
}

/// For the answers of office 1 down and of office 2 across, 0 to 3: the joint
/// answer and the office that decides.
type Rule = [[(u32, u32); 4]; 4];

const GRANT_FIRST: Rule = [
    [(0, 0), (1, 2), (2, 2), (1, 2)],
    [(1, 1), (1, 1), (1, 1), (1, 1)],
    [(2, 1), (1, 2), (2, 1), (1, 2)],
    [(1, 1), (1, 1), (1, 1), (1, 1)],
];

const DENY_FIRST: Rule = [
    [(0, 0), (1, 2), (2, 2), (2, 2)],
    [(1, 1), (1, 1), (2, 2), (2, 2)],
    [(2, 1), (2, 1), (2, 1), (2, 1)],
    [(2, 1), (2, 1), (2, 1), (2, 1)],
];

const FIRST_APPLICABLE: Rule = [
    [(0, 0), (1, 2), (2, 2), (3, 2)],
    [(1, 1), (1, 1), (1, 1), (1, 1)],
    [(2, 1), (2, 1), (2, 1), (2, 1)],
    [(3, 1), (3, 1), (3, 1), (3, 1)],
];

pub const RULES: [Rule; 3] = [GRANT_FIRST, DENY_FIRST, FIRST_APPLICABLE];

/// Two offices that give these answers about person 1, deed 1, folio 1.
fn two_answers(first: u32, second: u32) -> Sheet {
    let nodes = [[1, 1, 0, 3], [2, 1, 0, 3], [3, 1, 1, 3], [3, 1, 2, 3], [4, 1, 0, 3]];
    let marks = |fact: u32| u32::from(first & fact != 0) + 2 * u32::from(second & fact != 0);
    let edges: [Row; 5] =
        [[1, 0, 1, 3], [3, 1, 2, marks(1)], [4, 1, 3, marks(2)], [5, 2, 4, 3], [5, 3, 4, 3]];
    let marked: Vec<Row> = edges.into_iter().filter(|row| row[3] != 0).collect();
    Sheet::new(2, &nodes, &marked)
}

fn joint_rules(book: &mut Book) {
    let names = ["grant-first", "deny-first", "first-applicable"];
    for (first, second) in (0..16).map(|pair| (pair / 4, pair % 4)) {
        let sheet = two_answers(first as u32, second as u32);
        for (at, rule) in RULES.iter().enumerate() {
            let name = format!("{}, offices answer {first} and {second}", names[at]);
            book.joint(&name, &sheet, [at as u32 + 1, 1, 1, 1], rule[first][second]);
        }
        let name = format!("offices answer {first} and {second}");
        book.answer(&format!("{name}, at 1"), &sheet, [1, 1, 1, 1], first as u32);
        book.answer(&format!("{name}, at 2"), &sheet, [2, 1, 1, 1], second as u32);
    }
}
