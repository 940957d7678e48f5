//! Named cases of listings: texts and sheets written out side by side. What is
//! refused stands in `listing_refusals`.

use crate::model::limits::*;
use crate::model::sheet::*;
use crate::named::book::{Asked, Book};
use crate::named::checks;
use crate::named::joins::nothing;
use crate::named::listing_refusals;
use crate::named::sister::*;

pub fn all() -> Vec<Asked> {
    let mut book = Book::default();
    sister_ships(&mut book);
    nothing_at_all(&mut book);
    nine_lines(&mut book);
    orders(&mut book);
    numbers(&mut book);
    alike(&mut book);
    lengths(&mut book);
    full(&mut book);
    listing_refusals::add_all(&mut book);
    book.asked
}

pub const A: &str = "\
person 11
person 12
category 21
category 22
deed 31/1
deed 31/2
folio 41
folio 42
in 11 21
in 12 22
within 21 22
grant 22 31/1
ban 21 31/2
applies 31/1 41
applies 31/2 42
";

const B: &str = "\
person 11
category 21
deed 31/2
folio 42
in 11 21
grant 21 31/2
applies 31/2 42
";

const C: &str = "\
person 11
person 12
category 21
category 22
deed 31/1
deed 31/2
folio 41
folio 42
in 11 21
in 12 22
within 21 22
grant 22 31/1
grant 22 31/2
ban 21 31/2
applies 31/1 41
applies 31/2 42
";

fn both_ways(book: &mut Book, name: &str, sheet: &Sheet, text: &str) {
    book.read(name, text.as_bytes(), sheet);
    book.typed(name, sheet, text);
}

fn sister_ships(book: &mut Book) {
    both_ways(book, "sheet A", &sheet_a(), A);
    both_ways(book, "sheet B", &sheet_b(), B);
    both_ways(book, "sheet C", &sheet_c(), C);
    book.not_typed("the joint of A and B", &joint_of_a_and_b().words(), (28, 1, 0));
}

fn nothing_at_all(book: &mut Book) {
    both_ways(book, "nothing", &nothing(), "");
    book.not_typed("nothing of two offices", &Sheet::new(2, &[], &[]).words(), (28, 1, 0));
    book.not_read("an empty line", b"\n", (40, 0));
}

/// As the request gives them. By themselves they lack a category and a deed.
const NINE: &str = "\
person 11
category 21
deed 31/1
folio 41
in 11 21
within 21 22
grant 22 31/1
ban 21 31/2
applies 31/1 41
";

fn nine_lines(book: &mut Book) {
    book.not_read("the nine lines", NINE.as_bytes(), (43, 5));
    let nodes =
        [[1, 11, 0, 1], [2, 21, 0, 1], [2, 22, 0, 1], [3, 31, 1, 1], [3, 31, 2, 1], [4, 41, 0, 1]];
    let edges = [[1, 0, 1, 1], [2, 1, 2, 1], [3, 2, 3, 1], [4, 1, 4, 1], [5, 3, 5, 1]];
    let whole = format!("{NINE}category 22\ndeed 31/2\n");
    book.read("the nine lines and their ends", whole.as_bytes(), &Sheet::new(1, &nodes, &edges));
    for (at, line) in NINE.split_inclusive('\n').enumerate().take(4) {
        let node = [at as u32 + 1, [11, 21, 31, 41][at], u32::from(at == 2), 1];
        both_ways(book, &format!("{} alone", line.trim_end()), &Sheet::new(1, &[node], &[]), line);
    }
    for (at, line) in NINE.split_inclusive('\n').enumerate().skip(4) {
        let name = format!("line {at} of the nine alone");
        book.not_read(&name, line.as_bytes(), (43, 0));
    }
}

/// Any order gives the same sheet.
fn orders(book: &mut Book) {
    let lines: Vec<&str> = A.split_inclusive('\n').collect();
    let (nodes, edges) = lines.split_at(8);
    let turned: String = lines.iter().rev().copied().collect();
    book.read("A, the last line first", turned.as_bytes(), &sheet_a());
    let edges_first = [edges.concat(), nodes.concat()].concat();
    book.read("A, its edges first", edges_first.as_bytes(), &sheet_a());
    let every_second: Vec<&str> =
        lines.iter().skip(1).step_by(2).chain(lines.iter().step_by(2)).copied().collect();
    book.read("A, every second line first", every_second.concat().as_bytes(), &sheet_a());
    for at in 1..lines.len() {
        let mut turned = lines.clone();
        turned.rotate_left(at);
        book.read(&format!("A from line {at} on"), turned.concat().as_bytes(), &sheet_a());
    }
}

/// 0 is a variant, and 4294967295 is a number.
fn numbers(book: &mut Book) {
    let most = u32::MAX;
    let nodes = [[1, most, 0, 1], [2, most, 0, 1], [3, most, most, 1], [4, most, 0, 1]];
    let edges = [[1, 0, 1, 1], [3, 1, 2, 1], [4, 1, 2, 1], [5, 2, 3, 1]];
    let text = "\
person 4294967295
category 4294967295
deed 4294967295/4294967295
folio 4294967295
in 4294967295 4294967295
grant 4294967295 4294967295/4294967295
ban 4294967295 4294967295/4294967295
applies 4294967295/4294967295 4294967295
";
    both_ways(book, "numbers of 4294967295", &Sheet::new(1, &nodes, &edges), text);
    let nodes = [[2, 1, 0, 1], [3, 1, 0, 1], [3, 1, 1, 1], [4, 1, 0, 1]];
    let edges = [[3, 0, 1, 1], [4, 0, 2, 1], [5, 1, 3, 1]];
    let text = "\
category 1
deed 1/0
deed 1/1
folio 1
grant 1 1/0
ban 1 1/1
applies 1/0 1
";
    both_ways(book, "variants 0 and 1", &Sheet::new(1, &nodes, &edges), text);
    for number in [1, 9, 10, 99, 100, 65_535, 65_536, 1_000_000_000, 2_147_483_648, most - 1] {
        let sheet = Sheet::new(1, &[[4, number, 0, 1]], &[]);
        both_ways(book, &format!("folio {number}"), &sheet, &format!("folio {number}\n"));
        let sheet = Sheet::new(1, &[[3, 7, number, 1]], &[]);
        both_ways(book, &format!("deed 7/{number}"), &sheet, &format!("deed 7/{number}\n"));
    }
}

/// Rows that differ in one thing are not the same row, and rise by number and not
/// by spelling.
fn alike(book: &mut Book) {
    let nodes = [[1, 5, 0, 1], [2, 5, 0, 1], [3, 5, 0, 1], [3, 5, 5, 1], [4, 5, 0, 1]];
    let text = "person 5\ncategory 5\ndeed 5/0\ndeed 5/5\nfolio 5\n";
    both_ways(book, "5 of each type", &Sheet::new(1, &nodes, &[]), text);
    let nodes = [[4, 2, 0, 1], [4, 10, 0, 1], [4, 11, 0, 1], [4, 100, 0, 1]];
    let sheet = Sheet::new(1, &nodes, &[]);
    both_ways(book, "2 before 10", &sheet, "folio 2\nfolio 10\nfolio 11\nfolio 100\n");
    book.read("10 typed before 2", b"folio 10\nfolio 100\nfolio 11\nfolio 2\n", &sheet);
    let nodes = [[2, 1, 0, 1], [2, 2, 0, 1]];
    let ring = Sheet::new(1, &nodes, &[[2, 0, 1, 1], [2, 1, 0, 1]]);
    both_ways(book, "a ring", &ring, "category 1\ncategory 2\nwithin 1 2\nwithin 2 1\n");
    let nodes = [[2, 1, 0, 1], [3, 1, 1, 1]];
    let sheet = Sheet::new(1, &nodes, &[[3, 0, 1, 1], [4, 0, 1, 1]]);
    let text = "category 1\ndeed 1/1\ngrant 1 1/1\nban 1 1/1\n";
    both_ways(book, "a grant and a ban of the same", &sheet, text);
    let nodes = [[3, 1, 11, 1], [3, 11, 1, 1]];
    both_ways(book, "1/11 and 11/1", &Sheet::new(1, &nodes, &[]), "deed 1/11\ndeed 11/1\n");
}

/// Texts of all lengths about a word's: the last word is filled in part.
fn lengths(book: &mut Book) {
    for digits in 1..=10 {
        let number = "1234567891"[..digits].parse::<u32>().unwrap_or(1);
        let sheet = Sheet::new(1, &[[1, number, 0, 1]], &[]);
        let text = format!("person {number}\n");
        both_ways(book, &format!("a text of {} bytes", text.len()), &sheet, &text);
    }
}

/// Categories 1 to 512, and containments as far as they go.
fn full(book: &mut Book) {
    let sheet = checks::full();
    let mut text: String = (1..=MOST_NODES).map(|number| format!("category {number}\n")).collect();
    for [_, from, to, _] in &sheet.edges {
        text += &format!("within {} {}\n", from + 1, to + 1);
    }
    both_ways(book, "a full sheet", &sheet, &text);
    let mut lines: Vec<&str> = text.split_inclusive('\n').collect();
    lines.reverse();
    book.read("a full sheet, the last line first", lines.concat().as_bytes(), &sheet);
}
