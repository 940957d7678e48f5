//! Named cases of listings that are refused: each line that is none of the nine,
//! each number that is none, and what comes before what.

use crate::model::limits::*;
use crate::model::sheet::*;
use crate::named::book::Book;
use crate::named::checks::crowded;
use crate::named::joins::marked;
use crate::named::listings::A;
use crate::named::lookups::bad_versions_of_a;
use crate::named::sister::*;

pub fn add_all(book: &mut Book) {
    not_of_the_nine(book);
    no_line_feed(book);
    numbers(book);
    repeated(book);
    within_itself(book);
    ends(book);
    in_one_line(book);
    line_by_line(book);
    limits(book);
    bad_sheets(book);
}

/// None of the nine, whatever stands before and behind it.
const NONE_OF_THE_NINE: [&str; 62] = [
    "",
    " ",
    "person",
    "person ",
    "person  11",
    " person 11",
    "person 11 ",
    "person\t11",
    "person 11\t",
    "person 11\r",
    "\rperson 11",
    "Person 11",
    "PERSON 11",
    "persons 11",
    "perso 11",
    "person11",
    "person 11 12",
    "person +11",
    "person -11",
    "person 1 1",
    "person 1,100",
    "person 11.",
    "person 11.0",
    "person 0x11",
    "person 1e1",
    "person a",
    "person 11/0",
    "person 11/",
    "person /11",
    "person \u{0661}\u{0661}",
    "person\u{00A0}11",
    "\u{FEFF}person 11",
    "person 11\0",
    "person\0 11",
    "person 11 # comment",
    "# person 11",
    "11",
    "deed 31",
    "deed 31/",
    "deed /1",
    "deed /",
    "deed 31//1",
    "deed 31/1/1",
    "deed 31/1/",
    "deed 31 /1",
    "deed 31/ 1",
    "deed 31 1",
    "deed 31/+1",
    "deed 31/-1",
    "deed 31\\1",
    "in 11",
    "in 11 21 22",
    "in 11  21",
    "in 11/0 21",
    "in 11,21",
    "within 21",
    "grant 22 31",
    "grant 22/0 31/1",
    "grant 31/1",
    "ban 21 31 2",
    "applies 31 41",
    "applies 31/1 41/0",
];

fn not_of_the_nine(book: &mut Book) {
    for line in NONE_OF_THE_NINE {
        let name = format!("{line:?}");
        book.not_read(&format!("{name} alone"), format!("{line}\n").as_bytes(), (40, 0));
        let behind = format!("{A}{line}\nfolio 7\n");
        book.not_read(&format!("{name} among others"), behind.as_bytes(), (40, 15));
    }
    for bytes in [&b"person 1\xB9\n"[..], b"person \xFF\n", b"\xC0\x80person 1\n", b"\x80\n"] {
        book.not_read(&format!("the bytes {bytes:?}"), bytes, (40, 0));
    }
    book.not_read("lines that end as on another system", b"person 11\r\nperson 12\r\n", (40, 0));
    book.not_read("an empty line behind the last", format!("{A}\n").as_bytes(), (40, 15));
    book.not_read("an empty line before the first", format!("\n{A}").as_bytes(), (40, 0));
}

/// Any end of A's text but that of a line: the last line is short or lacks its line
/// feed, and is none of the nine in either case.
fn no_line_feed(book: &mut Book) {
    for length in 1..A.len() {
        let text = &A[..length];
        let line = text.matches('\n').count() as u32;
        if !text.ends_with('\n') {
            book.not_read(&format!("the first {length} bytes of A"), text.as_bytes(), (40, line));
        }
    }
}

/// The lines of A that have each number, with `#` in its place.
const PLACES: [(&str, bool); 18] = [
    ("person #", false),
    ("category #", false),
    ("deed #/1", false),
    ("deed 31/#", true),
    ("folio #", false),
    ("in # 21", false),
    ("in 11 #", false),
    ("within # 22", false),
    ("within 21 #", false),
    ("grant # 31/2", false),
    ("grant 22 #/2", false),
    ("grant 22 31/#", true),
    ("ban # 31/1", false),
    ("ban 21 #/1", false),
    ("ban 21 31/#", true),
    ("applies #/1 42", false),
    ("applies 31/# 42", true),
    ("applies 31/1 #", false),
];

const BAD: [&str; 10] = [
    "00",
    "01",
    "011",
    "0000000000",
    "04294967295",
    "4294967296",
    "4294967297",
    "9999999999",
    "10000000000",
    "18446744073709551616",
];

fn numbers(book: &mut Book) {
    let long = ["1".repeat(20), "9".repeat(40), "7".repeat(1_000), "0".repeat(1_000)];
    for (place, variant) in PLACES {
        let bad = BAD.into_iter().chain(long.iter().map(String::as_str));
        for number in bad.chain((!variant).then_some("0")) {
            let line = place.replace('#', number);
            let name = format!("{place} with {} digits {:.20}", number.len(), number);
            book.not_read(&name, format!("{A}{line}\n").as_bytes(), (41, 15));
        }
    }
    book.not_read("0 alone", b"person 0\n", (41, 0));
    book.not_read("both numbers 0", b"in 0 0\n", (41, 0));
    book.not_read("deed 0/0", b"deed 0/0\n", (41, 0));
}

/// Each row of A again, at the end and right behind it.
fn repeated(book: &mut Book) {
    let lines: Vec<&str> = A.split_inclusive('\n').collect();
    for (at, line) in lines.iter().enumerate() {
        let name = line.trim_end();
        book.not_read(
            &format!("{name}, again at the end"),
            format!("{A}{line}").as_bytes(),
            (42, 15),
        );
        let mut twice = lines.clone();
        twice.insert(at, line);
        let place = (42, at as u32 + 1);
        book.not_read(&format!("{name}, twice"), twice.concat().as_bytes(), place);
    }
    book.not_read("a repeated row whose ends are missing", b"in 1 2\nin 1 2\n", (42, 1));
    book.not_read("three times", b"folio 1\nfolio 1\nfolio 1\n", (42, 1));
}

fn within_itself(book: &mut Book) {
    let text = |line: &str| format!("{A}{line}\n").into_bytes();
    book.not_read("21 within itself", &text("within 21 21"), (14, 15));
    book.not_read("4294967295 within itself", b"within 4294967295 4294967295\n", (14, 0));
    book.not_read("within itself, twice", b"within 1 1\nwithin 1 1\n", (14, 0));
}

/// A without one of its nodes: the first line that names it.
fn ends(book: &mut Book) {
    let lines: Vec<&str> = A.split_inclusive('\n').collect();
    for (at, line) in [(0, 7), (1, 8), (2, 7), (3, 8), (4, 10), (5, 11), (6, 12), (7, 13)] {
        let mut fewer = lines.clone();
        let name = format!("A without {}", fewer.remove(at).trim_end());
        book.not_read(&name, fewer.concat().as_bytes(), (43, line));
        let edges_first = [&fewer[7..], &fewer[..7]].concat();
        let name = format!("{name}, edges first");
        book.not_read(&name, edges_first.concat().as_bytes(), (43, line - 7));
    }
    let other = "person 1\ncategory 2\ndeed 3/4\nfolio 5\n";
    for line in [
        "in 2 2",
        "in 1 1",
        "within 1 2",
        "within 2 1",
        "grant 2 3/5",
        "grant 2 4/3",
        "grant 3 3/4",
        "ban 2 3/0",
        "ban 5 3/4",
        "applies 3/4 4",
        "applies 3/3 5",
        "applies 5/4 5",
    ] {
        let text = format!("{other}{line}\n");
        book.not_read(&format!("{line} of other nodes"), text.as_bytes(), (43, 4));
    }
    book.not_read("two edges without ends", b"person 1\nin 1 2\nin 1 3\n", (43, 1));
}

/// The first of 40, 41, 42, 14 in a line.
fn in_one_line(book: &mut Book) {
    let text = |line: &str| format!("{A}{line}").into_bytes();
    for (name, line, number) in [
        ("40 before 41, no line feed", "person 0", 40),
        ("40 before 41, a trailing space", "person 01 \n", 40),
        ("40 before 41, a second bad name", "in 0 x\n", 40),
        ("40 before 41, too large and no variant", "deed 4294967296\n", 40),
        ("40 before 41, a sign", "in 00 +1\n", 40),
        ("40 before 42, no line feed", "person 11", 40),
        ("40 before 42, a carriage return", "person 11\r\n", 40),
        ("40 before 14, no line feed", "within 21 21", 40),
        ("40 before 14, two spaces", "within 21  21\n", 40),
        ("41 before 42, a leading zero", "person 011\n", 41),
        ("41 before 42, a leading zero in a variant", "deed 31/01\n", 41),
        ("41 before 42, in an edge", "within 021 22\n", 41),
        ("41 before 14, a leading zero", "within 21 021\n", 41),
        ("41 before 14, zeros", "within 0 0\n", 41),
        ("41 before 14, too large", "within 4294967296 4294967296\n", 41),
    ] {
        book.not_read(name, &text(line), (number, 15));
    }
}

/// The first line that has a fault decides, and what is looked for after the last
/// line comes after all of them.
fn line_by_line(book: &mut Book) {
    let faults: [(u32, &str); 4] =
        [(40, "folio\n"), (41, "folio 0\n"), (42, "folio 42\n"), (14, "within 9 9\n")];
    for (first, line) in faults {
        for (second, other) in faults.into_iter().chain([(43, "in 9 9\n")]) {
            let text = format!("{A}{line}folio 7\n{other}");
            book.not_read(&format!("{first} and then {second}"), text.as_bytes(), (first, 15));
        }
        let text = format!("in 9 9\n{A}{line}");
        book.not_read(&format!("43 and then {first}"), text.as_bytes(), (first, 16));
    }
}

/// So many persons, one a line.
fn persons(count: usize) -> String {
    (1..=count).map(|number| format!("person {number}\n")).collect()
}

fn containments(count: usize) -> String {
    let sheet = crowded(46, count);
    let nodes = sheet.nodes.iter().map(|row| format!("category {}\n", row[1]));
    let edges = sheet.edges.iter().map(|row| format!("within {} {}\n", row[1] + 1, row[2] + 1));
    nodes.chain(edges).collect()
}

/// 4 comes after every line's own fault, and after 43.
fn limits(book: &mut Book) {
    let sheet = Sheet::new(1, &persons_of(MOST_NODES), &[]);
    book.read("512 persons", persons(MOST_NODES).as_bytes(), &sheet);
    book.not_read("513 persons", persons(MOST_NODES + 1).as_bytes(), (4, 0));
    let most = containments(MOST_EDGES);
    book.read("2048 containments", most.as_bytes(), &crowded(46, MOST_EDGES));
    book.not_read("2049 containments", containments(MOST_EDGES + 1).as_bytes(), (4, 0));
    let (many, line) = (persons(MOST_NODES + 1), MOST_NODES as u32 + 1);
    for (number, bad) in
        [(40, "person\n"), (41, "person 0\n"), (42, "person 1\n"), (14, "within 1 1\n")]
    {
        let text = format!("{many}{bad}");
        book.not_read(&format!("{number} behind 513 persons"), text.as_bytes(), (number, line));
    }
    let text = format!("{many}in 1 1\n");
    book.not_read("43 behind 513 persons", text.as_bytes(), (43, line));
    let text = format!("in 513 1\n{many}category 1\n");
    book.not_read("4, and an edge of the 513th", text.as_bytes(), (4, 0));
}

fn persons_of(count: usize) -> Vec<Row> {
    (1..=count as u32).map(|number| [PERSON, number, 0, 1]).collect()
}

/// The writer: the sheet's own faults before 28, and 28 before 25.
fn bad_sheets(book: &mut Book) {
    for (name, words, (number, row)) in bad_versions_of_a() {
        book.not_typed(&name, &words, (number, 1, row));
    }
    for offices in 1..=3 {
        let two = marked(&sheet_a(), 2, offices).words();
        book.not_typed(&format!("A with offices {offices} of two"), &two, (28, 1, 0));
    }
    let mut words = joint_of_a_and_b().words();
    words[HEADER] = 0;
    book.not_typed("6 before 28", &words, (6, 1, 0));
    let mut words = joint_of_a_and_b().words();
    words[0] = 2;
    book.not_typed("2 before 28", &words, (2, 1, 0));
}
