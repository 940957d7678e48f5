//! Named cases of the lookup in two sheets. Each says literally what the
//! document says of it.

use crate::model::limits::{HEADER, MOST_EDGES, MOST_NODES, MOST_WORDS};
use crate::model::sheet::*;
use crate::named::book::{Asked, Book};
use crate::named::checks::full;
use crate::named::sister::*;

pub fn all() -> Vec<Asked> {
    let mut book = Book::default();
    sister_ships(&mut book);
    first_before_second(&mut book);
    first_and_last_rows(&mut book);
    variants(&mut book);
    in_neither(&mut book);
    no_rows(&mut book);
    bad_sheets(&mut book);
    order_of_refusals(&mut book);
    full_sheets(&mut book);
    book.asked
}

fn sister_ships(book: &mut Book) {
    let (a, b, joint) = (sheet_a().words(), sheet_b().words(), joint_of_a_and_b().words());
    book.looked_up("person 12 of A, in A and B", &a, &b, [1, 12, 0, 1]);
    book.looked_up("person 12 of A, in B and A", &b, &a, [1, 12, 0, 1]);
    book.looked_up("deed 31/2 of A and B", &a, &b, [3, 31, 2, 1]);
    book.looked_up("deed 31/1 of A, in B and A", &b, &a, [3, 31, 1, 1]);
    book.looked_up("folio 41 of A, in A twice", &a, &a, [4, 41, 0, 1]);
    book.looked_up("folio 41 of A, in B and the joint", &b, &joint, [4, 41, 0, 1]);
    book.looked_up("folio 42, in the joint and A", &joint, &a, [4, 42, 0, 3]);
    book.looked_up("folio 42, in A and the joint", &a, &joint, [4, 42, 0, 1]);
    book.not_found("person 12, in B twice", &b, &b, [1, 12, 0]);
}

/// The row as it stands: the offices are those of the first sheet that has it.
fn first_before_second(book: &mut Book) {
    let of = |offices: u32| Sheet::new(2, &[[2, 7, 0, offices]], &[]).words();
    for one in 1..=3 {
        for other in 1..=3 {
            let name = format!("a category of offices {one}, then of {other}");
            book.looked_up(&name, &of(one), &of(other), [2, 7, 0, one]);
        }
    }
    let one_office = Sheet::new(1, &[[2, 7, 0, 1]], &[]).words();
    book.looked_up("a category of office 2 of 2, then 1 of 1", &of(2), &one_office, [2, 7, 0, 2]);
    book.looked_up("a category of office 1 of 1, then 2 of 2", &one_office, &of(2), [2, 7, 0, 1]);
}

fn first_and_last_rows(book: &mut Book) {
    let (a, empty) = (sheet_a().words(), Sheet::new(1, &[], &[]).words());
    let small = Sheet::new(2, &[[1, 1, 0, 2], [4, u32::MAX, 0, 3]], &[]).words();
    let rows = [("first", [1, 11, 0, 1]), ("last", [4, 42, 0, 1])];
    for (which, row) in rows {
        book.looked_up(&format!("the {which} row of the first"), &a, &small, row);
        book.looked_up(&format!("the {which} row of the second"), &small, &a, row);
        book.looked_up(&format!("the {which} row, the second empty"), &a, &empty, row);
        book.looked_up(&format!("the {which} row, the first empty"), &empty, &a, row);
    }
    book.looked_up("a lower row than all of the other", &small, &a, [1, 1, 0, 2]);
    book.looked_up("a higher row than all of the other", &a, &small, [4, u32::MAX, 0, 3]);
    let only = Sheet::new(1, &[[3, 5, 9, 1]], &[]).words();
    book.looked_up("the only row of the first", &only, &a, [3, 5, 9, 1]);
    book.looked_up("the only row of the second", &a, &only, [3, 5, 9, 1]);
}

/// A deed is looked up by its variant too, whatever stands beside it.
fn variants(book: &mut Book) {
    let m = u32::MAX;
    let of = |variants: &[u32]| {
        let deeds: Vec<Row> = variants.iter().map(|&variant| [3, 31, variant, 1]).collect();
        Sheet::new(1, &deeds, &[]).words()
    };
    let (even, odd) = (of(&[0, 2, 4, m - 1]), of(&[1, 3, 5, m]));
    for variant in [0, 1, 2, 3, 4, 5, m - 1, m] {
        let name = format!("variant {variant} of even and odd ones");
        book.looked_up(&name, &even, &odd, [3, 31, variant, 1]);
        let name = format!("variant {variant} of odd and even ones");
        book.looked_up(&name, &odd, &even, [3, 31, variant, 1]);
    }
    for variant in [1, 3, 5, m] {
        let name = format!("variant {variant} of even ones, twice");
        book.not_found(&name, &even, &even, [3, 31, variant]);
    }
}

/// Any words at all: the faults 6 and 7 are about rows, and no row is asked.
fn in_neither(book: &mut Book) {
    let (a, b) = (sheet_a().words(), sheet_b().words());
    for sort in [0, 5, 6, 257, 1 << 31, u32::MAX] {
        book.not_found(&format!("type {sort}"), &a, &b, [sort, 11, 0]);
    }
    for sort in 1..=4 {
        book.not_found(&format!("number 0 of type {sort}"), &a, &b, [sort, 0, 0]);
        book.not_found(&format!("number 4294967295 of type {sort}"), &a, &b, [sort, u32::MAX, 0]);
    }
    for (sort, number) in [(1, 11), (2, 21), (4, 42)] {
        for variant in [1, 2, u32::MAX] {
            let name = format!("variant {variant} of type {sort}");
            book.not_found(&name, &a, &b, [sort, number, variant]);
        }
    }
    for variant in [0, 3, u32::MAX] {
        book.not_found(&format!("deed 31/{variant} of A and B"), &a, &b, [3, 31, variant]);
    }
    for (sort, number) in [(1, 10), (1, 13), (2, 20), (2, 23), (4, 40), (4, 43)] {
        book.not_found(&format!("{number} of type {sort}"), &a, &b, [sort, number, 0]);
    }
    for (sort, number) in [(2, 11), (3, 11), (4, 11), (1, 21), (4, 21), (1, 41)] {
        let name = format!("{number} as type {sort}, which is another's");
        book.not_found(&name, &a, &b, [sort, number, 0]);
    }
    book.not_found("three words of 0", &a, &b, [0, 0, 0]);
    book.not_found("the header's words", &a, &b, [1, 1, 8]);
    book.not_found("an edge's words", &a, &b, [1, 0, 2]);
    book.not_found("words across two rows", &a, &b, [0, 1, 1]);
}

fn no_rows(book: &mut Book) {
    let [one, two] = [1, 2].map(|count| Sheet::new(count, &[], &[]).words());
    book.not_found("two empty sheets", &one, &one, [1, 1, 0]);
    book.not_found("two empty sheets of two offices", &two, &two, [0, 0, 0]);
    book.not_found("two empty sheets, the words of their headers", &one, &two, [1, 1, 0]);
}

/// Sheet A with one fault: its name, its words, and the number and row of its
/// refusal.
pub fn bad_versions_of_a() -> Vec<(String, Vec<u32>, (u32, u32))> {
    let a = sheet_a().words();
    let changed = |at: usize, word: u32| {
        let mut words = a.clone();
        words[at] = word;
        words
    };
    let above = format!("{} nodes", MOST_NODES + 1);
    let all: [(&str, Vec<u32>, (u32, u32)); 17] = [
        ("5 words", a[..HEADER - 1].to_vec(), (1, 0)),
        ("form 2", changed(0, 2), (2, 0)),
        ("no office", changed(1, 0), (3, 0)),
        (&above, changed(2, MOST_NODES as u32 + 1), (4, 0)),
        ("node offset 7", changed(4, 7), (5, 0)),
        ("type 5 in the last row", changed(34, 5), (6, 7)),
        ("number 0 in the first row", changed(7, 0), (7, 0)),
        ("no office in row 1", changed(13, 0), (8, 1)),
        ("row 1 equal to row 0", changed(11, 11), (9, 1)),
        ("row 1 below row 0", changed(11, 10), (10, 1)),
        ("kind 0", changed(38, 0), (11, 0)),
        ("an end of 8", changed(40, 8), (12, 0)),
        ("a person for a category", changed(40, 1), (13, 0)),
        ("22 contained in itself", changed(47, 3), (14, 2)),
        ("no office in the last edge", changed(65, 0), (15, 6)),
        ("edge 6 equal to edge 5", [&a[..62], &a[58..62]].concat(), (16, 6)),
        ("edge 6 below edge 5", [&a[..58], &a[62..66], &a[58..62]].concat(), (17, 6)),
    ];
    all.map(|(name, words, says)| (name.to_string(), words, says)).to_vec()
}

/// Whichever sheet has the identity, and whether any has.
fn bad_sheets(book: &mut Book) {
    let b = sheet_b().words();
    for (name, words, (number, row)) in bad_versions_of_a() {
        for wanted in [[1, 11, 0], [1, 12, 0], [9, 9, 9]] {
            let of = |which: &str| format!("{name}, in the {which}, looking for {wanted:?}");
            book.lookup_refused(&of("first"), &words, &b, wanted, (number, 1, row));
            book.lookup_refused(&of("second"), &b, &words, wanted, (number, 2, row));
        }
    }
}

fn order_of_refusals(book: &mut Book) {
    let a = sheet_a().words();
    let (mut form, mut late) = (a.clone(), a.clone());
    (form[0], late[65]) = (2, 0);
    for wanted in [[1, 11, 0], [4, 42, 0], [0, 0, 0]] {
        let of = |name: &str| format!("{name}, looking for {wanted:?}");
        let name = of("the first's last edge before the second's form");
        book.lookup_refused(&name, &late, &form, wanted, (15, 1, 6));
        let name = of("the first's form before the second's last edge");
        book.lookup_refused(&name, &form, &late, wanted, (2, 1, 0));
        let name = of("the same fault twice");
        book.lookup_refused(&name, &late, &late, wanted, (15, 1, 6));
        book.lookup_refused(&of("no words twice"), &[], &[], wanted, (1, 1, 0));
        book.lookup_refused(&of("A, then no words"), &a, &[], wanted, (1, 2, 0));
        book.lookup_refused(&of("no words, then A"), &[], &a, wanted, (1, 1, 0));
    }
}

fn full_sheets(book: &mut Book) {
    let full = full().words();
    let mut last = full.clone();
    last[MOST_WORDS - 1] = 0;
    let (n, e) = (MOST_NODES as u32, MOST_EDGES as u32);
    for number in [1, 2, n / 2, n - 1, n] {
        book.looked_up(&format!("category {number} of {n}"), &full, &full, [2, number, 0, 1]);
    }
    book.not_found(&format!("category {} of {n}", n + 1), &full, &full, [2, n + 1, 0]);
    let name = format!("the last edge of {e}");
    book.lookup_refused(&name, &full, &last, [2, 1, 0], (15, 2, e - 1));
    book.lookup_refused(&format!("{name} first"), &last, &full, [2, 1, 0], (15, 1, e - 1));
}
