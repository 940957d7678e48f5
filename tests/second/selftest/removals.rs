//! Tests of removing an edge, by hand, and that what is compared afterwards can fail:
//! a question 10 that lists too much has to be found by the answers that it loses.

use std::collections::BTreeSet;

use crate::cases::plan::{Counts, Plan};
use crate::cases::removals::{Removals, ASKED};
use crate::misread::redundant;
use crate::misread::surveys::Asking;
use crate::misread::Misreading;
use crate::model::judge::judge_words;
use crate::model::office::Side;
use crate::model::redundant::redundant_rows;
use crate::model::removal::{every_answer, harm, removals, remove, Removal};
use crate::model::sheet::*;
use crate::model::survey::REDUNDANT;
use crate::named;
use crate::run::tally::Tally;
use crate::selftest;
use crate::selftest::paths::all_paths;
use crate::selftest::questions::HAND_WORDS;
use crate::selftest::repeatable::{repeatable, NONE};

/// Sheets that are looked at, and how many removals have to show each mistake.
const SOME: usize = 800;
const ENOUGH: usize = 10;

pub fn run(tally: &mut Tally) {
    by_hand(tally);
    harm_by_hand(tally);
    selftest::named::run(tally, "removals", &named::removals::all(), Plan::before_removals);
    repeatable(tally, "removal", Plan::len, |removals| Counts { removals, ..NONE });
    as_asked(tally);
    let drawn = Removals::new(1, SOME);
    let sheets: Vec<Vec<u32>> = (0..SOME).map(|at| drawn.sheet(at)).collect();
    let distinct: BTreeSet<&Vec<u32>> = sheets.iter().collect();
    tally.test("no two sheets of the removals are the same", distinct.len() == SOME);
    counted_out(tally, &sheets[..SOME / 2]);
    too_much_is_found(tally, &sheets);
}

/// Of the sheet of questions 1 to 4 by hand, which has 82 words and its edge rows from
/// word 34.
fn by_hand(tally: &mut Tally) {
    // Row 1, 1,0,2,3 at word 38, loses the mark of office 1.
    let Removal { kind, gone, rest, .. } = remove(&HAND_WORDS, 1, 1);
    let mut marked = HAND_WORDS;
    marked[41] = 2;
    tally.test("a row loses one of two marks", rest == marked && (kind, gone) == (MEMBER, false));
    let rest = remove(&HAND_WORDS, 2, 1).rest;
    marked[41] = 1;
    tally.test("a row loses the other mark", rest == marked);
    // Row 9, 4,3,4,1 at word 70, goes; 12 edges become 11.
    let Removal { kind, gone, rest, .. } = remove(&HAND_WORDS, 1, 9);
    let mut without = [&HAND_WORDS[..70], &HAND_WORDS[74..]].concat();
    without[3] = 11;
    tally.test("a row goes with its last mark", rest == without && (kind, gone) == (BAN, true));
    let listed = |_: &[u32], office: u32| if office == 1 { vec![0, 1] } else { vec![11] };
    let all = removals(&HAND_WORDS, listed);
    let made: Vec<(u32, u32, bool)> = all.iter().map(|it| (it.office, it.row, it.gone)).collect();
    let says = [(1, 0, true), (1, 1, false), (2, 11, false)];
    tally.test("each listed edge is removed at its office", made == says);
}

/// 5 is granted and banned 9 on 3 at office 1, and granted at office 2.
fn harm_by_hand(tally: &mut Tally) {
    let before = every_answer(&HAND_WORDS);
    tally.test("every answer by hand", before.len() == 1 && before[0].at == [Ok(3), Ok(1)]);
    let joint = before[0].joint == [(1, 1), (2, 1), (3, 1)];
    tally.test("every joint answer by hand", joint);
    let harmed =
        |office: u32, row: u32| harm(&before, &remove(&HAND_WORDS, office, row).rest).is_some();
    // The ban of 8 on 9/0 is redundant, and nothing else is; without its membership of 7
    // the person has nothing at office 2. Row 7, the ban of 6 on 9/4, is not listed, but
    // another ban stands beside it.
    for (office, row, says) in
        [(1, 9, false), (2, 1, true), (1, 7, false), (2, 3, true), (2, 11, true)]
    {
        let name = format!("harm by hand: row {row} at office {office}");
        tally.test(&name, harmed(office, row) == says);
    }
    let mut refused = HAND_WORDS;
    refused[81] = 0;
    tally.test("a sheet that is refused is harm", harm(&before, &refused).is_some());
    let fewer = [1, 2, 0, 0, 6, 6];
    tally.test("answers that are gone are harm", harm(&before, &fewer).is_some());
}

/// Each removal has its list, its check and its questions, and what is expected of the
/// sheet without the edge is what this program says of it.
fn as_asked(tally: &mut Tally) {
    let plan = Plan::new(5, Counts { removals: SOME, ..NONE });
    let start = plan.len() - ASKED * SOME;
    let operations: Vec<u32> =
        (0..ASKED).map(|leg| plan.case(start + leg).about.operation).collect();
    tally.test("a list, a check and questions", operations == [10, 0, 1, 1, 1, 1, 1, 1]);
    let faults = (start..plan.len()).filter(|&number| plan.case(number).about.own_fault.is_some());
    tally.test("no removal changes what is expected", faults.count() == 0);
}

/// Office, whether it is a ban, and the person, deed number and folio of every path.
fn counted(words: &[u32]) -> BTreeSet<(u32, bool, [u32; 3])> {
    let edges: Vec<Row> = edge_rows(words).map(|row| [row[0], row[1], row[2], row[3]]).collect();
    let sheet = Sheet::new(office_count(words), &node_rows(words), &edges);
    let mut found = BTreeSet::new();
    for office in 1..=office_count(words) {
        for side in [Side::Grant, Side::Ban] {
            let triple = |path: &Vec<u32>| [path[0], path[path.len() - 4], path[path.len() - 2]];
            let paths = all_paths(&sheet, office, side);
            found.extend(paths.iter().map(|path| (office, side == Side::Ban, triple(path))));
        }
    }
    found
}

/// What has a path has one without the edge, counted out row by row.
fn counted_out(tally: &mut Tally, sheets: &[Vec<u32>]) {
    for (at, words) in sheets.iter().enumerate() {
        let before = counted(words);
        let same = |removal: &Removal| {
            judge_words(&removal.rest).number == 0 && counted(&removal.rest) == before
        };
        let all = removals(words, redundant_rows).iter().all(same);
        tally.test(&format!("sheet {at} of the removals: paths counted out"), all);
    }
}

/// Wrong versions of question 10 by which an answer is lost. Others list too little, or
/// what may go as well: a ban row that no path uses loses nothing.
const LOSING: [&str; 13] = [
    "the old rule for members everywhere",
    "beside bans, contained twice",
    "beside bans, contained or containing",
    "beside bans, containing alone",
    "beside bans, the own one contained",
    "beside bans, the own one containing",
    "members by a containing category",
    "the own category counts in a ring",
    "any person's member edge counts",
    "a ring is a path beside its own step",
    "bans by a containing category",
    "grants by a contained category",
    "rights on any variant of the deed",
];

fn too_much_is_found(tally: &mut Tally, sheets: &[Vec<u32>]) {
    let losses = |listed: &dyn Fn(&[u32], u32) -> Vec<u32>| {
        let lost = sheets.iter().map(|words| {
            let before = every_answer(words);
            let harmful = |removal: &&Removal| harm(&before, &removal.rest).is_some();
            removals(words, listed).iter().filter(harmful).count()
        });
        lost.sum::<usize>()
    };
    tally.test("what is listed may go", losses(&redundant_rows) == 0);
    let versions = redundant::all();
    for name in LOSING {
        let version = versions.iter().find(|version| version.name == name);
        let lost =
            version.map_or(0, |version| losses(&|words, office| misread(version, words, office)));
        tally.test(&format!("an answer is lost: {name}"), lost >= ENOUGH);
    }
}

/// The rows that a wrong version lists.
fn misread(version: &Misreading<Asking>, words: &[u32], office: u32) -> Vec<u32> {
    let (numbers, room) = ([office, 0, 0, 0, 0, 0], edge_count(words));
    let asking = Asking { operation: REDUNDANT, numbers, words: words.to_vec(), room };
    (version.read)(&asking).map_or(Vec::new(), |answer| answer.written)
}
