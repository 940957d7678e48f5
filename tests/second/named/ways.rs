//! Named cases of the other ways to questions 1 to 3: every named case of those
//! questions, asked of an opened sheet and by the counter, kinds of any word, and
//! the lengths of a file.

use crate::model::answer::WITNESS;
use crate::model::limits::{HEADER, MOST_BYTES, MOST_WORDS, WORD};
use crate::model::sheet::*;
use crate::named::book::{Asked, Book, Says};
use crate::named::checks::full;
use crate::named::questions;
use crate::named::sister::*;
use crate::trial::operation::{Way, WAYS};
use crate::trial::request::MOST_PAYLOAD;

pub fn all() -> Vec<Asked> {
    let mut book = Book::default();
    for question in 1..=WITNESS {
        short_files(&mut book, question);
        files_about_a_sheet(&mut book, question);
        long_files(&mut book, question);
        before_everything(&mut book, question);
        remainders_of_an_opened_sheet(&mut book, question);
    }
    kinds(&mut book);
    for way in WAYS {
        book.asked.extend(questions::all().into_iter().filter_map(|asked| asked.by(way)));
    }
    book.asked
}

/// Office or rule 1 of sheet A, grants of person 11, deed 31, folio 41.
fn of_sheet_a(question: u32) -> &'static [u32] {
    match question {
        WITNESS => &[1, 0, 11, 31, 41],
        _ => &[1, 11, 31, 41],
    }
}

fn refused(book: &mut Book, name: &str, question: u32, bytes: Vec<u8>, number: u32) {
    let says = Says::Refused(number, 1, 0);
    book.file(name, Way::Counter.operation(question), bytes, of_sheet_a(question), says);
}

/// Shorter than a header: 33 where they are not whole, and 1 where they are.
fn short_files(book: &mut Book, question: u32) {
    let a = bytes_of(&sheet_a().words());
    for length in 0..WORD * HEADER {
        let number = if length % WORD == 0 { 1 } else { 33 };
        let name = format!("the first {length} bytes of sheet A");
        refused(book, &name, question, a[..length].to_vec(), number);
    }
}

fn files_about_a_sheet(book: &mut Book, question: u32) {
    let a = bytes_of(&sheet_a().words());
    for (fewer, number) in [(1, 33), (2, 33), (3, 33), (4, 5)] {
        let name = format!("sheet A, {fewer} bytes short");
        refused(book, &name, question, a[..a.len() - fewer].to_vec(), number);
    }
    for (more, number) in [(1, 33), (2, 33), (3, 33), (4, 5)] {
        let mut longer = a.clone();
        longer.resize(a.len() + more, 0);
        refused(book, &format!("sheet A, {more} bytes too long"), question, longer, number);
    }
}

fn long_files(book: &mut Book, question: u32) {
    let full = bytes_of(&full().words());
    let says = Says::Refused(21, 0, 0);
    let (operation, numbers) = (Way::Counter.operation(question), of_sheet_a(question));
    let name = format!("{MOST_BYTES} bytes of categories");
    book.file(&name, operation, full.clone(), numbers, says);
    let above = [1, 2, 3, WORD, 2 * WORD].map(|more| MOST_BYTES + more);
    for length in above.into_iter().chain([MOST_PAYLOAD - 1, MOST_PAYLOAD]) {
        let mut longer = full.clone();
        longer.resize(length, 0);
        refused(book, &format!("{length} bytes"), question, longer, 33);
    }
    for less in 1..=WORD {
        let name = format!("{} bytes", full.len() - less);
        let number = if less == WORD { 5 } else { 33 };
        refused(book, &name, question, full[..full.len() - less].to_vec(), number);
    }
}

/// 33 comes before the sheet's own faults, and before whatever else is asked.
fn before_everything(book: &mut Book, question: u32) {
    let mut a = bytes_of(&sheet_a().words());
    a.push(0);
    let operation = Way::Counter.operation(question);
    let says = || Says::Refused(33, 1, 0);
    book.file("33 before all that is unknown", operation, a.clone(), &[9; 5], says());
    a[0] = 2;
    book.file("33 before 2", operation, a.clone(), of_sheet_a(question), says());
    book.file("33 before 2, all unknown", operation, a, &[9; 5], says());
    for (name, length, number) in [("33", MOST_BYTES + WORD, 33), ("2", MOST_BYTES, 2)] {
        let name = format!("{name}, {length} bytes of 0");
        refused(book, &name, question, vec![0; length], number);
    }
}

/// An opened sheet holds words, so that there is no 33.
fn remainders_of_an_opened_sheet(book: &mut Book, question: u32) {
    let operation = Way::Opened.operation(question);
    for more in 1..=3 {
        let mut bytes = bytes_of(&sheet_a().words());
        bytes.resize(bytes.len() + more, 255);
        let says = match question {
            1 => Says::Value(1),
            2 => Says::Joint(1, 1),
            _ => Says::Refused(25, 0, 0),
        };
        let name = format!("{more} bytes after sheet A");
        book.file(&name, operation, bytes, of_sheet_a(question), says);
    }
    let many = vec![0; MOST_BYTES + WORD];
    let name = format!("{} words of 0", MOST_WORDS + 1);
    book.file(&name, operation, many, of_sheet_a(question), Says::Refused(2, 1, 0));
}

/// Kind 0 asks for a grant, and any other for a ban. In sheet C there are both.
fn kinds(book: &mut Book) {
    let [grant, ban]: [&[u32]; 2] =
        [&[11, 0, 21, 0, 22, 0, 31, 2, 42, 0], &[11, 0, 21, 0, 31, 2, 42, 0]];
    for kind in [0, 1, 2, 255, 256, 0x0001_0000, 0x00FF_0000, 0x0100_0000, 1 << 31, u32::MAX] {
        let mut own = Book::default();
        let path = if kind == 0 { grant } else { ban };
        own.witness(&format!("kind {kind} of sheet C"), &sheet_c(), [1, kind, 11, 31, 42], path);
        for way in WAYS {
            book.asked.extend(own.asked.iter().cloned().filter_map(|asked| asked.by(way)));
        }
    }
}
