//! Named cases about the refusals of questions 5 to 10 and their order.

use crate::model::sheet::*;
use crate::model::survey::*;
use crate::named::book::Book;
use crate::named::sister::*;

pub fn add_all(book: &mut Book) {
    order(book);
    equal_deeds(book);
    limits_of_numbers(book);
    offices(book);
    other_office_alone(book);
    other_types(book);
    sheet_first(book);
}

/// What each question is asked after the office, all of it unknown.
fn strange(operation: u32) -> &'static [u32] {
    match operation {
        IN_CATEGORY => &[9],
        GRANTED | TWO_DEEDS => &[9, 9],
        _ => &[],
    }
}

/// Without room throughout: 25 comes last.
fn order(book: &mut Book) {
    let a = sheet_a();
    book.refused("an unknown category of A", &a, IN_CATEGORY, &[1, 9], 24);
    book.refused("both unknown in A", &a, GRANTED, &[1, 9, 9], 22);
    book.refused("an unknown deed of A", &a, GRANTED, &[1, 9, 41], 22);
    book.refused("an unknown folio of A", &a, GRANTED, &[1, 31, 9], 23);
    book.refused("the first deed unknown", &a, TWO_DEEDS, &[1, 9, 31], 22);
    book.refused("the second deed unknown", &a, TWO_DEEDS, &[1, 31, 9], 22);
    book.refused("two unknown deeds", &a, TWO_DEEDS, &[1, 8, 9], 22);
}

fn equal_deeds(book: &mut Book) {
    let a = sheet_a();
    book.refused("equal deeds, unknown", &a, TWO_DEEDS, &[1, 9, 9], 22);
    book.refused("equal deeds, known", &a, TWO_DEEDS, &[1, 31, 31], 31);
    // Granted on a folio, so that a pair would be found and not fit.
    let b = sheet_b();
    book.refused("equal deeds, granted", &b, TWO_DEEDS, &[1, 31, 31], 31);
    // Not granted at all, so that 26 would come after.
    let deed = Sheet::new(1, &[[3, 31, 0, 1]], &[]);
    book.refused("equal deeds, granted to nobody", &deed, TWO_DEEDS, &[1, 31, 31], 31);
}

fn limits_of_numbers(book: &mut Book) {
    let a = sheet_a();
    for number in [0, u32::MAX] {
        book.refused(&format!("category {number}"), &a, IN_CATEGORY, &[1, number], 24);
        book.refused(&format!("deed {number}"), &a, GRANTED, &[1, number, 41], 22);
        book.refused(&format!("folio {number}"), &a, GRANTED, &[1, 31, number], 23);
        book.refused(&format!("first deed {number}"), &a, TWO_DEEDS, &[1, number, 31], 22);
        book.refused(&format!("second deed {number}"), &a, TWO_DEEDS, &[1, 31, number], 22);
        let name = format!("deeds {number} and {number}");
        book.refused(&name, &a, TWO_DEEDS, &[1, number, number], 22);
    }
    let m = u32::MAX;
    let nodes = [[1, m, 0, 1], [2, m, 0, 1], [3, m - 1, m, 1], [3, m, m, 1], [4, m, 0, 1]];
    let edges =
        [[1, 0, 1, 1], [3, 1, 2, 1], [3, 1, 3, 1], [4, 1, 3, 1], [5, 2, 4, 1], [5, 3, 4, 1]];
    let most = Sheet::new(1, &nodes, &edges);
    book.found("the highest numbers", &most, &[IN_CATEGORY, 1, m], &[m]);
    book.found("the highest numbers", &most, &[GRANTED, 1, m, m], &[m]);
    book.found("the highest numbers", &most, &[NOT_GRANTED, 1], &[]);
    book.found("the highest numbers", &most, &[BOTH, 1], &[m, m, m]);
    book.found("the highest numbers", &most, &[TWO_DEEDS, 1, m, m - 1], &[m, m]);
}

fn offices(book: &mut Book) {
    let (a, joint) = (sheet_a(), joint_of_a_and_b());
    for operation in IN_CATEGORY..=REDUNDANT {
        for (sheet, name, bad) in [(&a, "A", [0, 2, 3, 257]), (&joint, "the joint", [0, 3, 4, 258])]
        {
            for office in bad.into_iter().chain([0x8000_0001, u32::MAX]) {
                let asked = [&[office], strange(operation)].concat();
                book.refused(&format!("office {office} of {name}"), sheet, operation, &asked, 20);
            }
        }
    }
}

/// Category 1, deeds 1 and 2 and folio 1 are known to office 1 and not to 2,
/// which has category, deed and folio 3.
fn other_office_alone(book: &mut Book) {
    let nodes = [
        [2, 1, 0, 1],
        [2, 3, 0, 2],
        [3, 1, 0, 1],
        [3, 2, 0, 1],
        [3, 3, 0, 3],
        [4, 1, 0, 1],
        [4, 3, 0, 2],
    ];
    let sheet = Sheet::new(2, &nodes, &[]);
    book.found("a category of office 1, asked there", &sheet, &[IN_CATEGORY, 1, 1], &[]);
    book.refused("a category of office 1, asked at 2", &sheet, IN_CATEGORY, &[2, 1], 24);
    book.found("a deed of office 1, asked there", &sheet, &[GRANTED, 1, 1, 1], &[]);
    book.refused("a deed of office 1, asked at 2", &sheet, GRANTED, &[2, 1, 3], 22);
    book.refused("a folio of office 1, asked at 2", &sheet, GRANTED, &[2, 3, 1], 23);
    book.none("deeds of office 1, asked there", &sheet, &[TWO_DEEDS, 1, 1, 2]);
    book.refused("a first deed of office 1, asked at 2", &sheet, TWO_DEEDS, &[2, 1, 3], 22);
    book.refused("a second deed of office 1, asked at 2", &sheet, TWO_DEEDS, &[2, 3, 1], 22);
    book.refused("equal deeds of office 1, asked at 2", &sheet, TWO_DEEDS, &[2, 1, 1], 22);
    book.refused("equal deeds of both, asked at 2", &sheet, TWO_DEEDS, &[2, 3, 3], 31);
}

/// Known, but as something else.
fn other_types(book: &mut Book) {
    let a = sheet_a();
    for number in [11, 31, 41] {
        book.refused(&format!("{number} as a category"), &a, IN_CATEGORY, &[1, number], 24);
    }
    for number in [11, 21, 41] {
        book.refused(&format!("{number} as a deed"), &a, GRANTED, &[1, number, 41], 22);
        book.refused(&format!("{number} as a first deed"), &a, TWO_DEEDS, &[1, number, 31], 22);
    }
    for number in [11, 21, 31] {
        book.refused(&format!("{number} as a folio"), &a, GRANTED, &[1, 31, number], 23);
    }
}

/// Before the office and everything else.
fn sheet_first(book: &mut Book) {
    let a = sheet_a();
    for operation in IN_CATEGORY..=REDUNDANT {
        let mut words = a.words();
        words[65] = 0;
        book.bad_sheet("the last edge of no office", &words, operation, (15, 6));
        words[37] = 0;
        book.bad_sheet("the last node of no office", &words, operation, (8, 7));
        words[0] = 2;
        book.bad_sheet("form 2", &words, operation, (2, 0));
        book.bad_sheet("no words", &[], operation, (1, 0));
    }
}
