//! Named traces of the duty desk: what the request's own words say of them. They are put to
//! the joint sheet of A and B. Of person 11, deed 31 and folio 42 office 1 says Banned and
//! office 2 Granted; of 12, 31 and 41 office 1 says Granted, and office 2 does not know 12.

use crate::model::sheet::Sheet;
use crate::named::book::{Asked, Book};
use crate::named::lookups::bad_versions_of_a;
use crate::named::sister::*;

pub fn all() -> Vec<Asked> {
    let mut book = Book::default();
    open_and_closed(&mut book);
    offices(&mut book);
    far_minutes(&mut book);
    wrong_rows(&mut book);
    crowds(&mut book);
    sheets(&mut book);
    book.asked
}

type Words = [u32; 5];

const LAST: u32 = u32::MAX;
const GRANTED: u32 = 1;
const BANNED: u32 = 2;

fn start(minute: u32) -> Words {
    [minute, 1, 42, 0, 0]
}

fn end(minute: u32) -> Words {
    [minute, 2, 42, 0, 0]
}

/// Granted while the folio is open, and Banned otherwise.
fn asks(minute: u32) -> Words {
    [minute, 3, 42, 11, 31]
}

fn joint() -> Vec<u32> {
    joint_of_a_and_b().words()
}

fn traced(book: &mut Book, name: &str, timeout: u32, rows: &[Words], says: &[u32]) {
    book.traced(name, &joint(), timeout, &rows.concat(), says);
}

fn open_and_closed(book: &mut Book) {
    let (open, closed) = (GRANTED, BANNED);
    let mut add = |name: &str, timeout: u32, rows: &[Words], says: &[u32]| {
        traced(book, name, timeout, rows, says);
    };
    add("never started", 10, &[asks(0), asks(9)], &[closed, closed]);
    let rows = [start(5), asks(5), asks(6), asks(14), asks(15), asks(16)];
    add(
        "open after its minute and before its timeout's",
        10,
        &rows,
        &[closed, open, open, closed, closed],
    );
    let rows = [start(5), asks(8), end(8), asks(8), asks(9)];
    add("until a later end", 10, &rows, &[open, closed, closed]);
    let rows = [end(5), start(5), asks(6)];
    add("an end before the start ends nothing", 10, &rows, &[open]);
    let rows = [start(5), start(8), asks(8), asks(14), asks(15), asks(17), asks(18)];
    add("a second start", 10, &rows, &[open, open, open, open, closed]);
    let rows = [start(5), start(14), asks(14), asks(15)];
    add("the second in the last minute of the first", 10, &rows, &[open, open]);
    let rows = [start(5), start(15), asks(15), asks(16)];
    add("the second in the timeout's own minute", 10, &rows, &[closed, open]);
    let rows = [start(5), start(5), asks(5), asks(6), start(8), start(8), asks(8)];
    add("two starts of one minute", 10, &rows, &[closed, open, open]);
    let rows = [start(5), end(8), start(8), asks(8), asks(9)];
    add("an end between two starts", 10, &rows, &[closed, open]);
    let rows = [start(5), start(7), end(8), asks(8), asks(9)];
    add("an end ends both starts", 10, &rows, &[closed, closed]);
    let rows = [start(5), [6, 2, 41, 0, 0], asks(6), [6, 1, 41, 0, 0], end(7), asks(8)];
    add("another folio's end and start", 10, &rows, &[open, closed]);
    let rows = [start(0), asks(0), asks(1)];
    add("a timeout of 0", 0, &rows, &[closed, closed]);
    add("a timeout of 1", 1, &rows, &[closed, closed]);
    add("a timeout of 2", 2, &rows, &[closed, open]);
    add("no question", 10, &[start(3), end(4)], &[]);
    add("no rows", 10, &[], &[]);
}

/// Office 1 grants 12 the deed on 41, which it alone knows.
fn offices(book: &mut Book) {
    let rows = [[1, 1, 41, 0, 0], [2, 3, 41, 12, 31], [2, 3, 41, 11, 31], [2, 3, 41, 99, 31]];
    traced(book, "office 2 does not know, then office 1", 10, &rows, &[GRANTED, GRANTED, 0]);
    let rows = [[1, 1, 77, 0, 0], [2, 3, 77, 11, 31], [2, 3, 0, 0, 0], [2, 3, 42, 11, 0]];
    traced(book, "what no office knows is undetermined", 10, &rows, &[0, 0, 0]);
    let rows = [[1, 1, 0, 0, 0], [1, 1, LAST, 0, 0], [2, 2, 0, 0, 0], [2, 3, LAST, 11, 31]];
    traced(book, "folios 0 and 4294967295", 10, &rows, &[0]);
    // Both offices of their own: person 5 in 6, which grants and bans deed 9 on folio 3.
    let nodes = [[1, 5, 0, 3], [2, 6, 0, 3], [3, 9, 0, 3], [4, 3, 0, 3]];
    for first in 0..=3 {
        for second in 0..=3 {
            let mark = |bit: u32| u32::from(first & bit != 0) + 2 * u32::from(second & bit != 0);
            let mut edges = vec![[1, 0, 1, 3]];
            edges.extend(
                [(3, mark(1)), (4, mark(2))]
                    .iter()
                    .filter(|it| it.1 != 0)
                    .map(|it| [it.0, 1, 2, it.1]),
            );
            edges.push([5, 2, 3, 3]);
            let sheet = Sheet::new(2, &nodes, &edges).words();
            let rows = [[1, 3, 3, 5, 9], [1, 1, 3, 0, 0], [1, 3, 3, 5, 9], [2, 3, 3, 5, 9]];
            let open = if second == 0 { first } else { second };
            let name = format!("office 1 says {first} and office 2 {second}");
            book.traced(&name, &sheet, 9, &rows.concat(), &[first, first, open]);
        }
    }
}

/// Sums of minutes that no word has.
fn far_minutes(book: &mut Book) {
    let rows = [start(LAST - 1), asks(LAST - 1), asks(LAST)];
    traced(book, "a sum above 4294967295", 2, &rows, &[BANNED, GRANTED]);
    traced(book, "a sum of 4294967295", 1, &rows, &[BANNED, BANNED]);
    traced(book, "a sum far above 4294967295", LAST, &rows, &[BANNED, GRANTED]);
    let rows = [start(0), asks(1), asks(LAST - 1), asks(LAST)];
    traced(book, "a timeout of 4294967295 from minute 0", LAST, &rows, &[GRANTED, GRANTED, BANNED]);
    let rows = [start(1), asks(LAST - 1), asks(LAST), start(LAST), asks(LAST)];
    traced(
        book,
        "a timeout of 4294967295 from minute 1",
        LAST,
        &rows,
        &[GRANTED, GRANTED, GRANTED],
    );
}

fn refused(book: &mut Book, name: &str, rows: &[u32], number: u32, before: (u32, &[u32])) {
    let name = format!("{number}, {name}");
    book.not_traced(&name, &joint(), (10, rows), [number, 0, 0], before);
}

fn wrong_rows(book: &mut Book) {
    let before = [start(5), asks(6), asks(7)].concat();
    let mut add = |name: &str, row: &[u32], number: u32| {
        let rows = [&before[..], row].concat();
        refused(book, name, &rows, number, (3, &[GRANTED, GRANTED]));
        if row.len() == 5 {
            refused(
                book,
                &format!("{name}, and rows behind it"),
                &[&rows[..], &asks(9)].concat(),
                number,
                (3, &[GRANTED, GRANTED]),
            );
        }
    };
    add("a start a minute lower", &start(6), 50);
    add("an end at minute 0", &end(0), 50);
    add("a question a minute lower", &asks(6), 50);
    add("an unknown kind a minute lower", &[6, 9, 42, 0, 0], 50);
    add("a spare word a minute lower", &[6, 1, 42, 1, 0], 50);
    add("kind 0", &[7, 0, 42, 0, 0], 54);
    add("kind 4", &[7, 4, 42, 0, 0], 54);
    add("kind 4294967295", &[7, LAST, 42, 11, 31], 54);
    add("a start's person", &[7, 1, 42, 11, 0], 54);
    add("a start's deed", &[7, 1, 42, 0, 31], 54);
    add("an end's person", &[7, 2, 42, 11, 0], 54);
    add("an end's deed", &[7, 2, 42, 0, LAST], 54);
    add("one word", &[7], 54);
    add("two words, a minute lower", &[6, 3], 54);
    add("three words, an unknown kind", &[7, 9, 42], 54);
    add("four words", &[7, 3, 42, 11], 54);
    refused(book, "a first row of four words", &[0, 1, 42, 0], 54, (0, &[]));
    refused(book, "a first row of kind 0", &[0, 0, 42, 0, 0], 54, (0, &[]));
}

/// Starts of so many folios from 100 on, in one minute.
fn many(minute: u32, count: u32) -> Vec<Words> {
    (0..count).map(|at| [minute, 1, 100 + at, 0, 0]).collect()
}

fn crowds(book: &mut Book) {
    let add = |book: &mut Book, name: &str, more: &[Words]| {
        let rows = [&many(5, 32)[..], more].concat();
        traced(book, &format!("32 folios, {name}"), 10, &rows, &[]);
    };
    add(book, "and no more", &[]);
    add(book, "and all again", &many(14, 32));
    add(book, "an end and one more", &[[6, 2, 117, 0, 0], [6, 1, 999, 0, 0]]);
    add(book, "and as many when they expire", &[[15, 1, 998, 0, 0], [15, 1, 999, 0, 0]]);
    let no = |book: &mut Book, name: &str, number: u32, more: &[Words]| {
        let rows = [&many(5, 32)[..], more].concat();
        let taken = rows.len() as u32 - 1;
        refused(book, &format!("32 folios, {name}"), &rows.concat(), number, (taken, &[]));
    };
    no(book, "one more", 51, &[[5, 1, 999, 0, 0]]);
    no(book, "one more, a minute lower", 50, &[[4, 1, 999, 0, 0]]);
    no(book, "one more with a spare word", 54, &[[5, 1, 999, 1, 0]]);
    no(book, "one more in their last minute", 51, &[[14, 1, 999, 0, 0]]);
    no(book, "a start again and one more", 51, &[[6, 1, 100, 0, 0], [6, 1, 999, 0, 0]]);
    let again: Vec<Words> = [many(6, 32), vec![[15, 1, 999, 0, 0]]].concat();
    no(book, "all again, and one more when the first starts expire", 51, &again);
    let back = [[6, 2, 117, 0, 0], [6, 1, 998, 0, 0], [6, 1, 117, 0, 0]];
    no(book, "an end, one more, and a start again", 51, &back);
    let rows = many(5, 40).concat();
    book.traced("40 folios with a timeout of 0", &joint(), 0, &rows, &[]);
    let rows = many(LAST, 33).concat();
    let name = "51, 33 folios at the last minute";
    book.not_traced(name, &joint(), (LAST, &rows), [51, 0, 0], (32, &[]));
}

/// The sheet's own come first, but a step needs a row.
fn sheets(book: &mut Book) {
    let rows = [9, 9, 9, 9, 9, 0];
    for (name, words, (number, row)) in bad_versions_of_a() {
        book.not_traced(&name, &words, (10, &rows), [number, 1, row], (0, &[]));
    }
    let a = sheet_a().words();
    book.not_traced("A has no office 2", &a, (10, &rows), [3, 1, 0], (0, &[]));
    book.not_traced("A has no office 2, a right row", &a, (10, &start(1)), [3, 1, 0], (0, &[]));
    let empty = Sheet::new(2, &[], &[]).words();
    book.traced("a sheet without rows", &empty, 10, &[start(1), asks(2)].concat(), &[0]);
}
