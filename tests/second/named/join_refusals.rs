//! Named cases about the refusals of joining and their order, and about unions
//! at and above the limits.

use crate::model::limits::{MOST_EDGES, MOST_NODES};
use crate::model::sheet::*;
use crate::named::book::Book;
use crate::named::checks::{crowded, full};
use crate::named::joins::{marked, nothing};
use crate::named::lookups::bad_versions_of_a;
use crate::named::sister::*;

pub fn add_all(book: &mut Book) {
    bad_sheets(book);
    two_offices(book);
    limits_of_nodes(book);
    limits_of_edges(book);
    both_limits(book);
}

/// Whatever the other sheet is.
fn bad_sheets(book: &mut Book) {
    let b = sheet_b().words();
    let joint = joint_of_a_and_b().words();
    let mut late = sheet_a().words();
    late[65] = 0;
    for (name, words, (number, row)) in bad_versions_of_a() {
        book.not_joined(&format!("{name}, and B"), [&words, &b], (number, 1, row));
        book.not_joined(&format!("B, and {name}"), [&b, &words], (number, 2, row));
        book.not_joined(&format!("{name}, and two offices"), [&words, &joint], (number, 1, row));
        book.not_joined(&format!("two offices, and {name}"), [&joint, &words], (number, 2, row));
        book.not_joined(&format!("{name}, and a bad edge"), [&words, &late], (number, 1, row));
        book.not_joined(&format!("a bad edge, and {name}"), [&late, &words], (15, 1, 6));
    }
    book.not_joined("no words twice", [&[], &[]], (1, 1, 0));
    book.not_joined("B, and no words", [&b, &[]], (1, 2, 0));
}

/// After both checks and before everything else.
fn two_offices(book: &mut Book) {
    let (a, joint) = (sheet_a().words(), joint_of_a_and_b().words());
    book.not_joined("the joint, and A", [&joint, &a], (28, 1, 0));
    book.not_joined("A, and the joint", [&a, &joint], (28, 2, 0));
    book.not_joined("the joint twice", [&joint, &joint], (28, 1, 0));
    let mut of_one = a.clone();
    of_one[1] = 2;
    book.not_joined("A counted for two offices, and A", [&of_one, &a], (28, 1, 0));
    book.not_joined("A, and A counted for two offices", [&a, &of_one], (28, 2, 0));
    let empty = Sheet::new(2, &[], &[]).words();
    let nothing = nothing().words();
    book.not_joined("nothing of two offices, and nothing", [&empty, &nothing], (28, 1, 0));
    book.not_joined("nothing, and nothing of two offices", [&nothing, &empty], (28, 2, 0));
    let large = marked(&full(), 2, 3).words();
    let other = renumbered(&full(), 1_000).words();
    book.not_joined("two offices, and the union above both", [&large, &other], (28, 1, 0));
    book.not_joined("the union above both, and two offices", [&other, &large], (28, 2, 0));
}

/// The same with every number so much higher.
fn renumbered(sheet: &Sheet, more: u32) -> Sheet {
    let nodes: Vec<Row> = sheet.nodes.iter().map(|&[a, b, c, d]| [a, b + more, c, d]).collect();
    Sheet { nodes, ..sheet.clone() }
}

fn categories(numbers: impl Iterator<Item = u32>) -> Sheet {
    let nodes: Vec<Row> = numbers.map(|number| [CATEGORY, number, 0, 1]).collect();
    Sheet::new(1, &nodes, &[])
}

/// The categories 1 to n, marked by their places.
fn joint_categories(n: u32, mark: impl Fn(u32) -> u32) -> Sheet {
    let nodes: Vec<Row> = (1..=n).map(|number| [CATEGORY, number, 0, mark(number)]).collect();
    Sheet::new(2, &nodes, &[])
}

fn limits_of_nodes(book: &mut Book) {
    let mark = |in_first: bool, in_second: bool| u32::from(in_first) + 2 * u32::from(in_second);
    let (n, half) = (MOST_NODES as u32, MOST_NODES as u32 / 2);
    let (low, high) = (categories(1..=half), categories(half + 1..=n));
    let halves = joint_categories(n, |number| mark(number <= half, number > half));
    book.joined(&format!("two halves of {n}"), [&low, &high], &halves, [0, 0]);
    let (odd, even) = (categories((1..n).step_by(2)), categories((2..=n).step_by(2)));
    let turns = joint_categories(n, |number| mark(number % 2 == 1, number % 2 == 0));
    book.joined(&format!("{n} in turns"), [&odd, &even], &turns, [0, 0]);
    let (most, last) = (categories(1..=n - 1), categories(2..=n));
    let but_one = joint_categories(n, |number| mark(number < n, number >= 2));
    let name = format!("{n} that share {}", n - 2);
    book.joined(&name, [&most, &last], &but_one, [n - 2, 0]);
    let (all, one) = (categories(1..=n), categories(n..=n));
    let with_one = joint_categories(n, |number| mark(true, number == n));
    book.joined(&format!("{n} and the last of them"), [&all, &one], &with_one, [1, 0]);
    let above = n + 1;
    let more = categories(above..=above);
    let cases = [
        (format!("{n} and one more"), [&all, &more]),
        (format!("one more and {n}"), [&more, &all]),
        (format!("{n} and a lower one"), [&categories(2..=above), &categories(1..=1)]),
        (format!("{above} that share {}", n - 1), [&all, &categories(2..=above)]),
        (
            format!("{} and {half}", half + 1),
            [&categories(1..=half + 1), &categories(half + 2..=above)],
        ),
        (format!("{n} and {n} others"), [&all, &categories(above..=2 * n)]),
    ];
    for (name, sheets) in cases {
        let [first, second] = sheets.map(Sheet::words);
        book.not_joined(&name, [&first, &second], (29, 0, 0));
    }
}

/// So many categories have containments for two sheets full of them.
const SEVERAL: usize = 100;
const _: () = assert!(SEVERAL * (SEVERAL - 1) >= 2 * MOST_EDGES);

/// Sheets of the same categories, with the containments of these places.
fn contained(places: std::ops::Range<usize>) -> Sheet {
    let mut sheet = crowded(SEVERAL, 2 * MOST_EDGES);
    sheet.edges = sheet.edges[places].to_vec();
    sheet
}

fn limits_of_edges(book: &mut Book) {
    let joint = |edges: usize, first: usize, second: usize| {
        let mut sheet = marked(&contained(0..edges), 2, 3);
        for (at, row) in sheet.edges.iter_mut().enumerate() {
            row[3] = u32::from(at < first) + 2 * u32::from(at >= second);
        }
        sheet
    };
    let (e, half, nodes) = (MOST_EDGES, MOST_EDGES / 2, SEVERAL as u32);
    let (low, high) = (contained(0..half), contained(half..e));
    let name = format!("two halves of {e}");
    book.joined(&name, [&low, &high], &joint(e, half, half), [nodes, 0]);
    let (most, last) = (contained(0..e - 1), contained(1..e));
    let name = format!("{e} that share {}", e - 2);
    book.joined(&name, [&most, &last], &joint(e, e - 1, 1), [nodes, e as u32 - 2]);
    let full = contained(0..e);
    let above = e + 1;
    let cases = [
        (format!("{e} and one more"), [&full, &contained(e..above)]),
        (format!("one more and {e}"), [&contained(e..above), &full]),
        (format!("{above} that share {}", e - 1), [&full, &contained(1..above)]),
        (
            format!("{} and {half}", half + 1),
            [&contained(0..half + 1), &contained(half + 1..above)],
        ),
        (format!("{e} and {e} others"), [&full, &contained(e..2 * e)]),
    ];
    for (name, sheets) in cases {
        let [first, second] = sheets.map(Sheet::words);
        book.not_joined(&name, [&first, &second], (30, 0, 0));
    }
}

/// 29 comes before 30, and both before 25.
fn both_limits(book: &mut Book) {
    let (n, e) = (MOST_NODES, MOST_EDGES);
    let full = full();
    let other = renumbered(&full, 1);
    let [first, second] = [&full, &other].map(Sheet::words);
    let name = format!("{} nodes, and edges above", n + 1);
    book.not_joined(&name, [&first, &second], (29, 0, 0));
    let far = renumbered(&full, n as u32).words();
    let name = format!("{} nodes and {} edges", 2 * n, 2 * e);
    book.not_joined(&name, [&first, &far], (29, 0, 0));
}
