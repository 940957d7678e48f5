//! Tests of listings: lines by hand, the texts of sheets read again, how their
//! cases are made, and that they tell each wrong version from the right one.

use std::collections::BTreeSet;

use crate::cases::listings::{SHEETS, TEXTS};
use crate::cases::plan::{Case, Counts, Plan};
use crate::cases::tours::{self, MOST_LINES};
use crate::generate::pairs;
use crate::generate::random::Random;
use crate::generate::texts::{self, LINE_FAULTS, NO_NODE, TWO_IN_ONE};
use crate::generate::typing::{self, places, PATTERNS};
use crate::goals::{listings, Goals};
use crate::misread;
use crate::model::answer::{Answer, Refusal};
use crate::model::limits::*;
use crate::model::listing::{lines, read, write, WORDS};
use crate::model::sheet::*;
use crate::named;
use crate::run::tally::Tally;
use crate::selftest;
use crate::selftest::misread::told_apart;
use crate::selftest::questions::{HAND_WORDS, JOINT_WORDS};
use crate::selftest::repeatable::{repeatable, NONE};
use crate::trial::expect::{expect, laid};
use crate::trial::operation::{READ_LISTING, WRITE_LISTING};
use crate::trial::request::{Request, MOST_OUTPUT, MOST_PAYLOAD};

/// A part of the random cases of a run, and how many of them have to show each
/// mistake.
const CASES: usize = 2_400;
const ENOUGH: usize = 3;

pub fn run(tally: &mut Tally) {
    small_texts(tally);
    written_by_hand(tally);
    outputs(tally);
    there_and_back(tally);
    every_line(tally);
    made_faults(tally);
    patterns(tally);
    missed_goals(tally);
    selftest::named::run(tally, "listings", &named::listings::all(), Plan::before_listings);
    repeatable(tally, "listing", Plan::before_additions, |listings| Counts { listings, ..NONE });
    made_cases(tally);
    distinguished(tally);
}

/// Written out by hand from the request: expected number and line, then the text.
const SMALL: [(u32, u32, &str); 40] = [
    (0, 0, ""),
    (0, 0, "person 1\n"),
    (0, 0, "deed 1/0\n"),
    (0, 0, "in 1 2\nperson 1\ncategory 2\n"),
    (0, 0, "within 2 1\nwithin 1 2\ncategory 1\ncategory 2\n"),
    (0, 0, "grant 1 1/0\nban 1 1/0\ncategory 1\ndeed 1/0\n"),
    (0, 0, "folio 1\napplies 1/4294967295 1\ndeed 1/4294967295\n"),
    (40, 0, "\n"),
    (40, 0, "person 1"),
    (40, 1, "person 1\nperson 2"),
    (40, 1, "person 1\n\nperson 2\n"),
    (40, 0, "person 1\r\n"),
    (40, 0, "person\t1\n"),
    (40, 0, "person 1 \n"),
    (40, 0, "person  1\n"),
    (40, 0, "person +1\n"),
    (40, 0, "deed 1\n"),
    (40, 0, "deed 1/2/3\n"),
    (40, 0, "person 1/0\n"),
    (40, 0, "in 1\n"),
    (40, 0, "member 1 2\n"),
    (40, 0, "person 0"),
    (41, 0, "person 0\n"),
    (41, 0, "person 00\n"),
    (41, 0, "person 01\n"),
    (41, 0, "person 4294967296\n"),
    (41, 0, "deed 0/1\n"),
    (41, 0, "deed 1/00\n"),
    (41, 0, "deed 1/01\n"),
    (41, 1, "person 1\nperson 01\n"),
    (41, 0, "within 0 0\n"),
    (41, 0, "within 1 01\n"),
    (42, 1, "person 1\nperson 1\n"),
    (42, 2, "in 1 2\nperson 1\nin 1 2\n"),
    (14, 0, "within 1 1\n"),
    (14, 1, "person 1\nwithin 1 1\nperson 0\n"),
    (43, 0, "in 1 2\n"),
    (43, 1, "person 1\nin 1 2\ncategory 1\n"),
    (43, 2, "category 1\ndeed 1/1\ngrant 1 1/0\nban 1 1/0\n"),
    (42, 2, "in 1 2\nin 1 3\nin 1 3\n"),
];

fn small_texts(tally: &mut Tally) {
    for (number, line, text) in SMALL {
        let says = match read(text.as_bytes(), MOST_OUTPUT) {
            Ok(_) => (0, 0, 0),
            Err(Refusal { number, sheet, row }) => (number, sheet, row),
        };
        tally.test(&format!("{text:?} gets {number} at {line}"), says == (number, 0, line));
    }
}

/// Person 5 in category 6; category 6 within 7.
const LEFT: &str = "person 5\ncategory 6\ncategory 7\nin 5 6\nwithin 6 7\n";

#[rustfmt::skip]
const LEFT_WORDS: [u32; 26] = [1,1,3,2,6,18, 1,5,0,1, 2,6,0,1, 2,7,0,1, 1,0,1,1, 2,1,2,1];

fn refused<T>(number: u32, sheet: u32) -> Result<T, Refusal> {
    Err(Refusal { number, sheet, row: 0 })
}

fn written_by_hand(tally: &mut Tally) {
    let list = |words: &[u32]| {
        Ok(Answer { count: words.len() as u32, written: words.to_vec(), ..Answer::default() })
    };
    let text = LEFT.as_bytes();
    tally.test("read by hand", read(text, 26) == list(&LEFT_WORDS));
    tally.test("read by hand, one word short", read(text, 25) == refused(25, 0));
    tally.test("nothing read", read(b"", 6) == list(&[1, 1, 0, 0, 6, 6]));
    tally.test("nothing read, no room", read(b"", 5) == refused(25, 0));
    let length = text.len();
    tally.test("written by hand", write(&LEFT_WORDS, length) == Ok(text.to_vec()));
    tally.test("written by hand, one byte short", write(&LEFT_WORDS, length - 1) == refused(25, 0));
    tally.test("nothing written", write(&[1, 1, 0, 0, 6, 6], 0) == Ok(Vec::new()));
    tally.test("two offices", write(&JOINT_WORDS, 0) == refused(28, 1));
    tally.test("two offices by hand", write(&HAND_WORDS, 999) == refused(28, 1));
    tally.test("a bad sheet", write(&LEFT_WORDS[..25], 0) == refused(5, 1));
}

fn outputs(tally: &mut Tally) {
    let request = |operation: u32, first: Vec<u8>, out_len: usize| {
        let (numbers, second) = ([7; 6], vec![1, 2, 3]);
        Request { operation, numbers, first, second, out_len, fill: 0x4443_4241 }
    };
    let person = [1, 1, 1, 0, 6, 10, 1, 12, 0, 1];
    let text = expect(&request(WRITE_LISTING, bytes_of(&person), 4));
    let bytes = bytes_of(&text.output);
    tally.test("a text and the fill", bytes == b"person 12\nCDABCD");
    tally.test("a text's reply", text.reply == [0, 0, 0, 0, 10, 0, 0, 4]);
    let short = expect(&request(WRITE_LISTING, bytes_of(&person), 2));
    tally.test("a text too long leaves the fill", bytes_of(&short.output) == b"ABCDABCD");
    tally.test("a text too long, the reply", short.reply == [25, 0, 0, 0, 0, 0, 0, 2]);
    let sheet = expect(&request(READ_LISTING, b"person 12\n".to_vec(), 11));
    tally.test("a sheet and the fill", sheet.output == [&person[..], &[0x4443_4241]].concat());
    tally.test("a sheet's reply", sheet.reply == [0, 0, 0, 0, 10, 0, 0, 11]);
    let bad = expect(&request(READ_LISTING, b"person 12\nperson".to_vec(), 1));
    tally.test("a text refused", bad.reply == [40, 0, 1, 0, 0, 0, 0, 1]);
    for length in 0..9 {
        let Answer { count, written, .. } = laid(&vec![b'x'; length], 0x4443_4241);
        let bytes = bytes_of(&written);
        let rest = &b"ABCD"[length % WORD..];
        let whole = bytes[..length].iter().all(|&byte| byte == b'x');
        let right = length % WORD == 0 || &bytes[length..] == rest;
        let counted = count as usize == length && bytes.len() == length.next_multiple_of(WORD);
        tally.test(&format!("{length} bytes in words"), whole && right && counted);
    }
}

/// A sheet's text gives the sheet again, in any order of its lines.
fn there_and_back(tally: &mut Tally) {
    for number in 0..400 {
        let random = &mut Random::for_case(19, number);
        let outline = pairs::whole(random);
        let words = outline.marked(random, 1).words();
        let text = write(&words, usize::MAX).unwrap_or_default();
        let back = |text: &[u8]| read(text, words.len()).unwrap_or_default().written;
        tally.test(&format!("sheet {number} written and read"), back(&text) == words);
        let own = typing::text(&typing::typed(&outline));
        tally.test(&format!("sheet {number} typed by hand"), own == text);
        let other = typing::text(&texts::ordered(random, &outline));
        tally.test(&format!("sheet {number} in another order"), back(&other) == words);
    }
}

/// Every text of one line out of a few pieces, against a table of all that are right.
fn every_line(tally: &mut Tally) {
    const PIECES: [&str; 13] = [
        "person", "category", "deed", "folio", "in", "within", "grant", " ", "1", "0", "/", "\n",
        "ban",
    ];
    let node = |word: &str| format!("{word} 1\n");
    let mut right: BTreeSet<String> = ["person", "category", "folio"].map(node).into();
    right.extend(["deed 1/1\n", "deed 1/0\n", "in 1 1\n"].map(String::from));
    for number in ["10", "11"] {
        right.extend(["person", "category", "folio"].map(|word| format!("{word} {number}\n")));
    }
    let mut texts: Vec<String> = vec![String::new()];
    let mut wrong = Vec::new();
    for _ in 0..5 {
        texts = texts
            .iter()
            .filter(|text| !text.contains('\n'))
            .flat_map(|text| PIECES.map(|piece| format!("{text}{piece}")))
            .collect();
        for text in &texts {
            let number = read(text.as_bytes(), MOST_OUTPUT).map_or_else(|no| no.number, |_| 0);
            let read = number == 0;
            // One more line is right by itself, but for its ends.
            if read != (right.contains(text) && text != "in 1 1\n") && number != 43 {
                wrong.push(text.clone());
            }
        }
    }
    tally.test(&format!("lines out of pieces: {wrong:?}"), wrong.is_empty());
}

/// What is aimed at is met, where it is aimed at.
fn made_faults(tally: &mut Tally) {
    let at = |text: &[u8]| match read(text, MOST_OUTPUT) {
        Err(Refusal { number, sheet: 0, row }) => (number, row as usize),
        _ => (0, 0),
    };
    for seed in 0..40 {
        let random = &mut Random::for_case(23, seed);
        let lines = texts::roomy(random);
        for number in LINE_FAULTS.into_iter().chain([NO_NODE]) {
            let (text, line) = texts::one_fault(random, &lines, number);
            tally.test(&format!("{number} made, {seed}"), at(&text) == (number, line));
            for first in LINE_FAULTS {
                let (text, line) = texts::two_lines(random, &lines, [first, number]);
                let name = format!("{first} and {number} made, {seed}");
                tally.test(&name, at(&text) == (first, line));
            }
        }
        for pair in TWO_IN_ONE {
            let (text, line) = texts::one_line(random, &lines, pair);
            tally.test(&format!("{pair:?} in one line, {seed}"), at(&text) == (pair[0], line));
        }
    }
}

/// The two tables of the nine lines say the same.
fn patterns(tally: &mut Tally) {
    let word = |pattern: &str| pattern.split(' ').next().unwrap_or("").to_string();
    let same = PATTERNS.iter().zip(&WORDS).all(|(pattern, own)| word(pattern) == own.word);
    tally.test("the same nine words", same && PATTERNS.len() == WORDS.len());
    let all: usize = (0..PATTERNS.len()).map(places).sum();
    tally.test("eighteen numbers in the nine lines", all * 24 == tours::NUMBERS && all == 18);
}

/// A goal that nothing meets is told.
fn missed_goals(tally: &mut Tally) {
    let none = Goals::default().misses();
    for goal in listings::needed_reading() {
        let missed = none.contains(&format!("operation {READ_LISTING}: {goal}"));
        tally.test(&format!("a goal of reading that can be missed: {goal}"), missed);
    }
    for goal in listings::needed_writing() {
        let missed = none.contains(&format!("operation {WRITE_LISTING}: {goal}"));
        tally.test(&format!("a goal of writing that can be missed: {goal}"), missed);
    }
}

fn made_cases(tally: &mut Tally) {
    let plan = Plan::new(5, Counts { listings: 400, ..NONE });
    let all: Vec<Case> =
        (plan.before_listings()..plan.before_additions()).map(|number| plan.case(number)).collect();
    let long = all.iter().filter(|case| lines(&case.request.first).count() > MOST_LINES);
    let long = long.filter(|case| case.request.operation == READ_LISTING).count();
    tally.test(&format!("{long} texts of more lines than a sheet has rows"), long <= 12);
    let slips = all.iter().filter(|case| case.about.own_fault.is_some()).count();
    tally.test("no listing misses its aim", slips == 0);
    let fits = all.iter().all(|case| {
        case.request.first.len() <= MOST_PAYLOAD && case.request.out_len <= MOST_OUTPUT
    });
    tally.test("every listing fits into a request", fits);
    let kinds: BTreeSet<&str> = all.iter().map(|case| case.about.kind).collect();
    for (kind, _) in TEXTS.iter().chain(&SHEETS) {
        tally.test(&format!("some cases are of the kind {kind}"), kinds.contains(kind));
    }
}

/// The random cases and the tours of small texts; and those at the limits and above
/// for what shows only there.
fn distinguished(tally: &mut Tally) {
    let plan = Plan::new(1, Counts { listings: CASES, ..NONE });
    let first = plan.before_listings() + named::listings::all().len();
    let quick = first + tours::QUICK;
    let slow = plan.before_additions() - CASES;
    let case = |number: usize| plan.case(number);
    let cases: Vec<Case> = (first..quick).chain(slow..plan.before_additions()).map(case).collect();
    told_apart(tally, &cases, misread::lines::WRONG.iter(), ENOUGH);
    told_apart(tally, &cases, misread::listings::WRONG.iter(), ENOUGH);
    told_apart(tally, &cases, misread::typings::WRONG.iter(), ENOUGH);
    let limits: Vec<Case> = (quick..slow - tours::FULL).map(case).collect();
    told_apart(tally, &limits, misread::listings::WRONG_AT_LIMITS.iter(), 1);
}
