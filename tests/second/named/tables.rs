//! Tables written out by hand, the row that is put to each, and what comes back. The sheet
//! is the joint of A and B: of person 11, deed 31 and folio 42 office 1 says Banned and
//! office 2 Granted. The timeout is 10.

use crate::model::watch::{Emergency, Watch, PLACES};
use crate::named::sister::*;
use crate::trial::lending::{Lending, Returned};

#[derive(Clone)]
pub struct Written {
    pub name: String,
    pub lending: Lending,
    pub says: Returned,
}

/// mark, folio, latest, earlier
type Words = [u32; 4];

const TIMEOUT: u32 = 10;
const LAST: u32 = u32::MAX;
const NOTHING: Words = [0, 0, 0, 0];
const TAKEN: [u32; 5] = [0, 0, 0, 0, 0];
const OPEN: [u32; 5] = [0, 0, 0, 1, 2];
const CLOSED: [u32; 5] = [0, 0, 0, 2, 1];

pub fn watch(last: u32, places: &[Words]) -> Watch {
    let mut watch = Watch { last, ..Watch::default() };
    for (place, &[mark, folio, latest, earlier]) in watch.places.iter_mut().zip(places) {
        *place = Emergency { mark, folio, latest, earlier };
    }
    watch
}

pub fn all() -> Vec<Written> {
    let mut book = Vec::new();
    starts(&mut book);
    ends(&mut book);
    questions(&mut book);
    empty_places(&mut book);
    full_tables(&mut book);
    refused(&mut book);
    twice(&mut book);
    bad_sheets(&mut book);
    book
}

fn add(book: &mut Vec<Written>, name: &str, before: Watch, row: &[u32], says: ([u32; 5], Watch)) {
    let (sheet, row) = (joint_of_a_and_b().words(), row.to_vec());
    let lending = Lending { watch: before, sheet, timeout: TIMEOUT, row };
    let says = Returned { answer: says.0, watch: says.1 };
    book.push(Written { name: name.to_string(), lending, says });
}

fn starts(book: &mut Vec<Written>) {
    let row = [8, 1, 42, 0, 0];
    let mut case = |name: &str, before: (u32, &[Words]), after: &[Words]| {
        add(book, name, watch(before.0, before.1), &row, (TAKEN, watch(8, after)));
    };
    case("a first start", (0, &[]), &[[1, 42, 8, 8]]);
    case("a start beside another", (5, &[[1, 7, 5, 5]]), &[[1, 7, 5, 5], [1, 42, 8, 8]]);
    case("a start again", (5, &[[1, 42, 5, 5]]), &[[1, 42, 8, 5]]);
    case("a third start", (6, &[[1, 42, 6, 5]]), &[[1, 42, 8, 6]]);
    case("a start again in the same minute", (8, &[[1, 42, 8, 5]]), &[[1, 42, 8, 5]]);
    case("a start below the latest", (5, &[[1, 42, 9, 3]]), &[[1, 42, 9, 3]]);
    case("a start again of another mark", (5, &[[9, 42, 5, 5]]), &[[9, 42, 8, 5]]);
    case(
        "a start into the first empty place",
        (7, &[NOTHING, [1, 7, 7, 7]]),
        &[[1, 42, 8, 8], [1, 7, 7, 7]],
    );
    let row = [15, 1, 42, 0, 0];
    let mut case = |name: &str, before: &[Words], after: &[Words]| {
        add(book, name, watch(6, before), &row, (TAKEN, watch(15, after)));
    };
    case("a start of what has expired", &[[1, 42, 5, 3]], &[[1, 42, 15, 15]]);
    case("a start of what is in its last minute", &[[1, 42, 6, 5]], &[[1, 42, 15, 6]]);
    case(
        "a start where another has expired",
        &[[1, 7, 5, 5], [1, 8, 6, 6]],
        &[[1, 42, 15, 15], [1, 8, 6, 6]],
    );
    case(
        "its own place is the later of two expired",
        &[[1, 7, 5, 5], [1, 42, 5, 5]],
        &[[1, 42, 15, 15]],
    );
    case("an earlier minute that is not below the latest", &[[1, 42, 6, 50]], &[[1, 42, 15, 6]]);
    let row = [8, 1, 0, 0, 0];
    add(book, "a start of folio 0", watch(8, &[]), &row, (TAKEN, watch(8, &[[1, 0, 8, 8]])));
}

fn ends(book: &mut Vec<Written>) {
    let row = [8, 2, 42, 0, 0];
    let mut case = |name: &str, before: &[Words], after: &[Words]| {
        add(book, name, watch(5, before), &row, (TAKEN, watch(8, after)));
    };
    case("an end of nothing", &[], &[]);
    case("an end", &[[1, 42, 5, 4]], &[]);
    case(
        "an end between others",
        &[[1, 7, 5, 5], [1, 42, 5, 4], [1, 8, 4, 4]],
        &[[1, 7, 5, 5], NOTHING, [1, 8, 4, 4]],
    );
    case("an end of another mark", &[[LAST, 42, 5, 4]], &[]);
    case("an end of a start to come", &[[1, 42, 99, 99]], &[]);
    case("an end of another folio", &[[1, 7, 5, 4]], &[[1, 7, 5, 4]]);
}

fn questions(book: &mut Vec<Written>) {
    let mut case =
        |name: &str, minute: u32, before: &[Words], answer: [u32; 5], after: &[Words]| {
            let row = [minute, 3, 42, 11, 31];
            add(book, name, watch(5, before), &row, (answer, watch(minute, after)));
        };
    let one = [[1, 42, 5, 5]];
    case("a question of an empty table", 5, &[], CLOSED, &[]);
    case("a question in the start's minute", 5, &one, CLOSED, &one);
    case("a question a minute later", 6, &one, OPEN, &one);
    case("a question in the last minute", 14, &one, OPEN, &one);
    case("a question in the timeout's minute", 15, &one, CLOSED, &[]);
    let two = [[1, 42, 5, 2]];
    case("a question in the second start's minute", 5, &two, OPEN, &two);
    let gone = [[1, 42, 12, 2]];
    case("a question when the first start has expired", 12, &gone, CLOSED, &gone);
    let to_come = [[1, 42, 9, 9]];
    case("a question before a start to come", 6, &to_come, CLOSED, &to_come);
    let both = [[1, 42, 9, 3]];
    case("a question between its starts", 6, &both, OPEN, &both);
    let turned = [[1, 42, 3, 9]];
    case("a question between turned starts", 6, &turned, OPEN, &turned);
    case("a question after a turned start has expired", 13, &turned, CLOSED, &[]);
    let marked = [[7, 42, 5, 5]];
    case("a question of another mark", 6, &marked, OPEN, &marked);
    case("a question of another folio", 6, &[[1, 7, 5, 5]], CLOSED, &[[1, 7, 5, 5]]);
}

/// An empty place is all zero after a row, whatever it was.
fn empty_places(book: &mut Vec<Written>) {
    let junk = [[0, 42, 5, 5], [1, 42, 5, 5], [0, 42, 5, 5]];
    let row = [6, 3, 42, 11, 31];
    add(
        book,
        "empty places that name a folio",
        watch(5, &junk),
        &row,
        (OPEN, watch(6, &[NOTHING, [1, 42, 5, 5]])),
    );
    let lone = [[0, 42, 5, 5]];
    add(book, "an empty place alone names it", watch(5, &lone), &row, (CLOSED, watch(6, &[])));
    let row = [6, 1, 42, 0, 0];
    add(
        book,
        "a start over such a place",
        watch(5, &lone),
        &row,
        (TAKEN, watch(6, &[[1, 42, 6, 6]])),
    );
    let row = [4, 1, 42, 0, 0];
    add(
        book,
        "a refused row leaves such a place",
        watch(5, &lone),
        &row,
        ([50, 0, 0, 0, 0], watch(5, &lone)),
    );
}

/// Of folios 100 on, all started in minute 5.
fn crowd(count: usize) -> Vec<Words> {
    (0..count as u32).map(|at| [1, 100 + at, 5, 5]).collect()
}

fn full_tables(book: &mut Vec<Written>) {
    let full = watch(5, &crowd(PLACES));
    let many = ([51, 0, 0, 0, 0], full.clone());
    add(book, "a start in a full table", full.clone(), &[14, 1, 42, 0, 0], many);
    let mut last = crowd(PLACES - 1);
    last.push([1, 42, 14, 14]);
    add(
        book,
        "a start into the last place",
        watch(5, &crowd(PLACES - 1)),
        &[14, 1, 42, 0, 0],
        (TAKEN, watch(14, &last)),
    );
    let mut again = crowd(PLACES);
    again[31] = [1, 131, 14, 5];
    add(
        book,
        "a start again in a full table",
        full.clone(),
        &[14, 1, 131, 0, 0],
        (TAKEN, watch(14, &again)),
    );
    add(
        book,
        "a start when all have expired",
        full.clone(),
        &[15, 1, 42, 0, 0],
        (TAKEN, watch(15, &[[1, 42, 15, 15]])),
    );
    used_again(book, full);
}

/// A place of a full table that has ended or expired.
fn used_again(book: &mut Vec<Written>, full: Watch) {
    let mut less = crowd(PLACES);
    less[17] = NOTHING;
    add(book, "an end in a full table", full, &[6, 2, 117, 0, 0], (TAKEN, watch(6, &less)));
    let mut one = crowd(PLACES);
    one[17] = [1, 117, 4, 4];
    let mut used = crowd(PLACES);
    used[17] = [1, 42, 14, 14];
    add(
        book,
        "a start where one of 32 has expired",
        watch(5, &one),
        &[14, 1, 42, 0, 0],
        (TAKEN, watch(14, &used)),
    );
}

/// The table stays as it was, its last minute and what has expired too.
fn refused(book: &mut Vec<Written>) {
    let before = watch(30, &[[1, 42, 5, 5], [0, 7, 7, 7], [1, 8, 28, 27]]);
    let mut case = |number: u32, row: &[u32]| {
        let name = format!("{number} for {row:?}");
        add(book, &name, before.clone(), row, ([number, 0, 0, 0, 0], before.clone()));
    };
    case(50, &[29, 3, 42, 11, 31]);
    case(50, &[0, 1, 42, 0, 0]);
    case(50, &[29, 9, 42, 0, 0]);
    case(50, &[29, 1, 42, 1, 0]);
    case(54, &[]);
    case(54, &[29]);
    case(54, &[31, 1, 42, 0]);
    case(54, &[31, 1, 42, 0, 0, 0]);
    case(54, &[29, 1, 42, 0, 0, 32, 1, 43, 0, 0]);
    case(54, &[31, 0, 42, 0, 0]);
    case(54, &[31, 4, 42, 11, 31]);
    case(54, &[31, 1, 42, 1, 0]);
    case(54, &[31, 1, 42, 0, 1]);
    case(54, &[31, 2, 42, 1, 0]);
    case(54, &[31, 2, 42, 0, LAST]);
}

/// By the names of used places alone, whatever the row.
fn twice(book: &mut Vec<Written>) {
    let rows: [&[u32]; 6] = [
        &[40, 1, 9, 0, 0],
        &[40, 3, 42, 11, 31],
        &[40, 2, 42, 0, 0],
        &[0, 9, 9, 9, 9],
        &[],
        &[40; 6],
    ];
    let tables: [(&str, &[Words]); 5] = [
        ("two that are held", &[[1, 42, 35, 35], [1, 42, 36, 36]]),
        ("two that have expired", &[[1, 42, 1, 1], [1, 9, 35, 35], [1, 42, 2, 2]]),
        ("one of them expired", &[[1, 9, 35, 35], [1, 42, 1, 1], [1, 42, 36, 36]]),
        ("two marks", &[[1, 42, 35, 35], [LAST, 42, 35, 35]]),
        ("folio 0", &[[1, 0, 35, 35], NOTHING, [2, 0, 36, 36]]),
    ];
    for (name, places) in tables {
        for row in rows {
            let before = watch(36, places);
            let says = ([59, 0, 0, 0, 0], before.clone());
            add(book, &format!("59, {name}, {row:?}"), before, row, says);
        }
    }
}

/// They come before 59 and everything else.
fn bad_sheets(book: &mut Vec<Written>) {
    let table = watch(36, &[[1, 42, 35, 35], [1, 42, 36, 36]]);
    let a = sheet_a().words();
    let mut late = joint_of_a_and_b().words();
    let end = late.len() - 1;
    late[end] = 0;
    for (name, sheet, says) in [
        ("no sheet", Vec::new(), [1, 1, 0, 0, 0]),
        ("no office 2", a.clone(), [3, 1, 0, 0, 0]),
        ("a word less", a[..a.len() - 1].to_vec(), [5, 1, 0, 0, 0]),
        ("a last row without offices", late, [15, 1, 7, 0, 0]),
    ] {
        let lending = Lending { watch: table.clone(), sheet, timeout: TIMEOUT, row: vec![0] };
        let says = Returned { answer: says, watch: table.clone() };
        book.push(Written { name: name.to_string(), lending, says });
    }
}
