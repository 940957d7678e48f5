//! Tests of the judge, by hand, of the comparer and the counters, and of how the
//! cases of the checks are made.

use crate::cases::plan::{Counts, Plan};
use crate::cases::{built, removals, traces};
use crate::generate::make;
use crate::generate::random::Random;
use crate::goals::coverage::{needed, Cell, Coverage};
use crate::model::judge::{judge_bytes, judge_words, Verdict};
use crate::model::limits::*;
use crate::model::place::Place;
use crate::model::sheet::{bytes_of, words_of};
use crate::named::{checks, sister};
use crate::run::tally::Tally;
use crate::selftest::repeatable::{repeatable, NONE};
use crate::trial::request::{compare, read_reply, Expected, Reply, Request};

pub fn run(tally: &mut Tally) {
    small_sheets(tally);
    byte_lengths(tally);
    named_cases(tally);
    document_lengths(tally);
    made_sheets(tally);
    comparer(tally);
    short_replies(tally);
    request_bytes(tally);
    coverage_misses(tally);
    tallies(tally);
    repeatable_cases(tally);
}

/// Written out by hand from the document: expected number and row, then words.
#[rustfmt::skip]
const SMALL: [(&str, u32, u32, &[u32]); 30] = [
    ("the empty sheet", 0, 0, &[1,1,0,0,6,6]),
    ("five words", 1, 0, &[1,1,0,0,6]),
    ("no words", 1, 0, &[]),
    ("form 2", 2, 0, &[2,1,0,0,6,6]),
    ("one office too many", 3, 0, &[1,MOST_OFFICES + 1,0,0,6,6]),
    ("no office", 3, 0, &[1,0,0,0,6,6]),
    ("one node too many", 4, 0, &[1,1,MOST_NODES as u32 + 1,0,6,2058]),
    ("one edge too many", 4, 0, &[1,1,0,MOST_EDGES as u32 + 1,6,6]),
    ("node offset 7", 5, 0, &[1,1,0,0,7,6]),
    ("edge offset 7", 5, 0, &[1,1,0,0,6,7]),
    ("a word too many", 5, 0, &[1,1,0,0,6,6,0]),
    ("a row missing", 5, 0, &[1,1,1,0,6,10]),
    ("a person", 0, 0, &[1,1,1,0,6,10, 1,11,0,1]),
    ("type 5", 6, 0, &[1,1,1,0,6,10, 5,11,0,1]),
    ("number 0", 7, 0, &[1,1,1,0,6,10, 1,0,0,1]),
    ("a person's variant", 7, 0, &[1,1,1,0,6,10, 1,11,1,1]),
    ("a deed's variant", 0, 0, &[1,1,1,0,6,10, 3,11,1,1]),
    ("office 2 of 1", 8, 0, &[1,1,1,0,6,10, 1,11,0,2]),
    ("equal persons", 9, 1, &[1,2,2,0,6,14, 1,11,0,1, 1,11,0,2]),
    ("falling persons", 10, 1, &[1,1,2,0,6,14, 1,12,0,1, 1,11,0,1]),
    ("kind 6", 11, 0, &[1,1,2,1,6,14, 1,1,0,1, 2,1,0,1, 6,0,1,1]),
    ("an end of n", 12, 0, &[1,1,2,1,6,14, 1,1,0,1, 2,1,0,1, 1,0,2,1]),
    ("a member the wrong way round", 13, 0, &[1,1,2,1,6,14, 1,1,0,1, 2,1,0,1, 1,1,0,1]),
    ("a category in itself", 14, 0, &[1,1,2,1,6,14, 1,1,0,1, 2,1,0,1, 2,1,1,1]),
    ("an edge of no office", 15, 0, &[1,1,2,1,6,14, 1,1,0,1, 2,1,0,1, 1,0,1,0]),
    ("an office its end lacks", 15, 0, &[1,2,2,1,6,14, 1,1,0,3, 2,1,0,1, 1,0,1,2]),
    ("a member", 0, 0, &[1,2,2,1,6,14, 1,1,0,3, 2,1,0,1, 1,0,1,1]),
    ("equal members", 16, 1, &[1,1,2,2,6,14, 1,1,0,1, 2,1,0,1, 1,0,1,1, 1,0,1,1]),
    ("falling members", 17, 1, &[1,1,3,2,6,18, 1,1,0,1, 2,1,0,1, 2,2,0,1, 1,0,2,1, 1,0,1,1]),
    ("rising members", 0, 0, &[1,1,3,2,6,18, 1,1,0,1, 2,1,0,1, 2,2,0,1, 1,0,1,1, 1,0,2,1]),
];

fn small_sheets(tally: &mut Tally) {
    for (name, number, row, words) in SMALL {
        let verdict = Verdict { number, row };
        tally.test(&format!("judge of words: {name}"), judge_words(words) == verdict);
        tally.test(&format!("judge of bytes: {name}"), judge_bytes(&bytes_of(words)) == verdict);
    }
}

fn byte_lengths(tally: &mut Tally) {
    let (header, most) = (WORD * HEADER, MOST_BYTES);
    let even = [(0, 1), (header - WORD, 1), (header, 2), (most, 2), (most + WORD, 33)];
    let uneven = [(1, 33), (header - 1, 33), (most - 1, 33), (most + 1, 33)];
    for (length, number) in even.into_iter().chain(uneven) {
        let verdict = judge_bytes(&vec![0; length]);
        tally.test(&format!("judge of {length} bytes of 0"), verdict == Verdict { number, row: 0 });
    }
}

fn named_cases(tally: &mut Tally) {
    let named = checks::all();
    let plan = Plan::new(0, Counts::default());
    for (number, case) in named.iter().enumerate() {
        let own_fault = plan.case(number).about.own_fault;
        tally.test(&format!("judge of the named case: {}", case.name), own_fault.is_none());
    }
    let mut names: Vec<&str> = named.iter().map(|case| case.name.as_str()).collect();
    names.sort();
    names.dedup();
    tally.test("no two named cases share a name", names.len() == named.len());
}

fn document_lengths(tally: &mut Tally) {
    tally.test("sheet A has 66 words", sister::sheet_a().words().len() == 66);
    tally.test("sheet B has 34 words", sister::sheet_b().words().len() == 34);
    tally.test("sheet C has 70 words", sister::sheet_c().words().len() == 70);
    tally.test("the joint has 70 words", sister::joint_of_a_and_b().words().len() == 70);
    let full = checks::full().words();
    tally.test("a full sheet has the most words", full.len() == MOST_WORDS);
    tally.test("a full sheet has the most bytes", bytes_of(&full).len() == MOST_BYTES);
}

fn made_sheets(tally: &mut Tally) {
    for number in 0..400 {
        let sheet = make::any(&mut Random::for_case(1, number));
        let accepted = judge_words(&sheet.words()).number == 0;
        tally.test(&format!("made sheet {number} is valid"), accepted);
    }
    let full = make::full(&mut Random::for_case(1, 0));
    let counts = (full.nodes.len(), full.edges.len());
    tally.test("a sheet made full is full", counts == (MOST_NODES, MOST_EDGES));
}

fn pair() -> (Expected, Reply) {
    let words = [9, 1, 4, 0, 0, 0, 0, 5];
    let output = vec![7; 5];
    (Expected { reply: words, output: output.clone() }, Reply { words, output })
}

fn comparer(tally: &mut Tally) {
    let (expected, right) = pair();
    tally.test("an equal reply shows no difference", compare(&expected, &right).is_empty());
    for at in 0..8 {
        for bit in 0..32 {
            let mut reply = right.clone();
            reply.words[at] ^= 1 << bit;
            let found = compare(&expected, &reply).len() == 1;
            tally.test(&format!("reply word {at}, bit {bit} changed"), found);
        }
    }
    for at in 0..5 {
        for bit in 0..32 {
            let mut reply = right.clone();
            reply.output[at] ^= 1 << bit;
            let found = compare(&expected, &reply).len() == 1;
            tally.test(&format!("output word {at}, bit {bit} changed"), found);
        }
    }
    let mut reply = right.clone();
    reply.output.pop();
    tally.test("an output one word short", compare(&expected, &reply).len() == 1);
    reply.output.extend([7, 7]);
    tally.test("an output one word long", compare(&expected, &reply).len() == 1);
}

fn short_replies(tally: &mut Tally) {
    let (expected, right) = pair();
    let mut bytes = bytes_of(&right.words);
    bytes.extend(bytes_of(&right.output));
    let whole = read_reply(&mut bytes.as_slice(), 5);
    let same = whole.is_ok_and(|reply| compare(&expected, &reply).is_empty());
    tally.test("a whole reply is read as it was written", same);
    for length in 0..bytes.len() {
        let short = read_reply(&mut &bytes[..length], 5).is_err();
        tally.test(&format!("a reply of {length} bytes is too short"), short);
    }
}

fn request_bytes(tally: &mut Tally) {
    let request = Request {
        operation: 20,
        numbers: [1, 2, 3, 4, 5, 0x0102_0304],
        first: vec![9, 8, 7, 6, 5],
        second: vec![1, 2],
        out_len: 3,
        fill: u32::MAX,
    };
    let bytes = request.bytes();
    let header = [20, 1, 2, 3, 4, 5, 0x0102_0304, 5, 2, 3, u32::MAX, 0];
    tally.test("a request's twelve words", words_of(&bytes[..48]) == header);
    tally.test("a request's words begin with the low byte", bytes[24..28] == [4, 3, 2, 1]);
    tally.test("a request's payloads follow", bytes[48..] == [9, 8, 7, 6, 5, 1, 2]);
}

fn coverage_misses(tally: &mut Tally) {
    let empty = Coverage::default();
    tally.test("an empty coverage misses everything", empty.misses() == needed());
    tally.test("87 cells are needed", needed().len() == 87);
    for left_out in needed() {
        let mut coverage = Coverage::default();
        needed().into_iter().filter(|&cell| cell != left_out).for_each(|cell| coverage.add(cell));
        coverage.add(Cell { place: Place::Only, ..left_out });
        tally.test(&format!("a miss is reported: {left_out}"), coverage.misses() == [left_out]);
    }
    let mut whole = Coverage::default();
    needed().into_iter().for_each(|cell| whole.add(cell));
    tally.test("a whole coverage has no miss", whole.misses().is_empty());
}

fn tallies(tally: &mut Tally) {
    let mut good = Tally::default();
    good.test("good", true);
    tally.test("one passed test is a good end", good.good());
    tally.test("no test at all is a bad end", !Tally::default().good());
    good.count(false);
    tally.test("one failed test is a bad end", !good.good());
}

fn repeatable_cases(tally: &mut Tally) {
    repeatable(tally, "case", Plan::before_questions, |checks| Counts { checks, ..NONE });
    for total in [0, 1, 99, 100, 101, 1_000_000] {
        let counts = Counts::of_long_run(total);
        let Counts { checks, questions, surveys, lookups, joins, ways, .. } = counts;
        let Counts { listings, additions, traces, built, removals, .. } = counts;
        let sheets = [traces::LEGS * traces, built::ASKED * built, removals::ASKED * removals];
        let series = [questions, surveys, lookups, joins, ways, listings, additions];
        let all: Vec<usize> = series.into_iter().chain(sheets).chain([checks]).collect();
        let enough =
            all.iter().sum::<usize>() >= total && all.iter().all(|&some| some > 0 || total == 0);
        tally.test(&format!("a long run of {total}"), enough);
    }
}
