//! Tests of searching and adding: by hand, against sheets built of identities, of how
//! their cases are made, and that they tell each wrong version from the right one.

use std::collections::BTreeSet;

use crate::cases::additions::{some_sheet, MANNERS};
use crate::cases::built::ASKED;
use crate::cases::plan::{Case, Counts, Plan};
use crate::generate::additions::{pairs_of, right};
use crate::generate::random::Random;
use crate::misread;
use crate::misread::additions::Addition;
use crate::misread::Asked;
use crate::model::addition::add;
use crate::model::answer::{refusal, Answer, Refusal};
use crate::model::contents::{Contents, Identity};
use crate::model::judge::{judge_words, ACCEPTED};
use crate::model::limits::WORD;
use crate::model::position::{search, Key, Table, TABLES};
use crate::model::sheet::*;
use crate::named;
use crate::named::sister::*;
use crate::run::tally::Tally;
use crate::selftest;
use crate::selftest::misread::told_apart;
use crate::selftest::questions::{HAND_WORDS, JOINT_WORDS};
use crate::selftest::repeatable::{repeatable, NONE};
use crate::trial::expect::expect;
use crate::trial::operation::{adding, finding};
use crate::trial::request::{Request, MOST_OUTPUT};

/// A third of the random cases of a run, and how many of them have to show each mistake.
const CASES: usize = 2_200;
const ENOUGH: usize = 5;

pub fn run(tally: &mut Tally) {
    searched_by_hand(tally);
    added_by_hand(tally);
    refused_by_hand(tally);
    outputs(tally);
    by_identities(tally);
    selftest::named::run(tally, "additions", &named::additions::all(), Plan::before_additions);
    repeatable(tally, "addition", Plan::before_traces, |additions| Counts { additions, ..NONE });
    built(tally);
    made_cases(tally);
    distinguished(tally);
}

/// Rows 1,5,0 2,6,0 2,7,0 2,8,0 3,9,0 3,9,4 4,3,0, and edges 1,0,1 1,0,2 2,1,3 2,2,3
/// 3,3,4 3,3,5 4,1,4 4,1,5 4,2,5 4,3,4 5,4,6 5,5,6.
const HAND: [(Table, Key, u32, u32); 14] = [
    (Table::Nodes, [1, 5, 0], 1, 0),
    (Table::Nodes, [1, 4, 9], 0, 0),
    (Table::Nodes, [1, 5, 1], 0, 1),
    (Table::Nodes, [2, 8, 0], 1, 3),
    (Table::Nodes, [3, 9, 3], 0, 5),
    (Table::Nodes, [4, 3, 0], 1, 6),
    (Table::Nodes, [4, 4, 0], 0, 7),
    (Table::Edges, [1, 0, 0], 0, 0),
    (Table::Edges, [2, 1, 2], 0, 2),
    (Table::Edges, [3, 3, 4], 1, 4),
    (Table::Edges, [4, 2, 4], 0, 8),
    (Table::Edges, [4, u32::MAX, 0], 0, 10),
    (Table::Edges, [5, 5, 6], 1, 11),
    (Table::Edges, [5, 6, 0], 0, 12),
];

fn searched_by_hand(tally: &mut Tally) {
    for (table, key, value, count) in HAND {
        let says = Ok(Answer { value, count, ..Answer::default() });
        let name = format!("searched by hand: {table:?} {key:?}");
        tally.test(&name, search(table, key, &HAND_WORDS) == says);
    }
    let bad = Err(Refusal { number: 5, sheet: 1, row: 0 });
    tally.test("a bad sheet searched", search(Table::Edges, [9, 9, 9], &HAND_WORDS[..81]) == bad);
    let mut late = HAND_WORDS;
    late[81] = 0;
    let bad = Err(Refusal { number: 15, sheet: 1, row: 11 });
    tally.test("a bad last row searched", search(Table::Nodes, [1, 5, 0], &late) == bad);
}

fn sheet(value: u32, words: &[u32]) -> Result<Answer, Refusal> {
    let (count, written) = (words.len() as u32, words.to_vec());
    Ok(Answer { value, count, written, ..Answer::default() })
}

/// Deed 9/2 of office 2 comes between 9/0 and 9/4: what was row 5 or 6 is one higher.
#[rustfmt::skip]
const WITH_DEED: [u32; 86] = [
    1,2,8,12,6,38,
    1,5,0,3, 2,6,0,1, 2,7,0,3, 2,8,0,3, 3,9,0,3, 3,9,2,2, 3,9,4,3, 4,3,0,3,
    1,0,1,1, 1,0,2,3, 2,1,3,1, 2,2,3,3, 3,3,4,3, 3,3,6,3, 4,1,4,1, 4,1,6,1, 4,2,6,1,
    4,3,4,1, 5,4,7,1, 5,6,7,3,
];

/// Category 7 bans 9/0 at office 2.
#[rustfmt::skip]
const WITH_BAN: [u32; 86] = [
    1,2,7,13,6,34,
    1,5,0,3, 2,6,0,1, 2,7,0,3, 2,8,0,3, 3,9,0,3, 3,9,4,3, 4,3,0,3,
    1,0,1,1, 1,0,2,3, 2,1,3,1, 2,2,3,3, 3,3,4,3, 3,3,5,3, 4,1,4,1, 4,1,5,1, 4,2,4,2,
    4,2,5,1, 4,3,4,1, 5,4,6,1, 5,5,6,3,
];

fn added_by_hand(tally: &mut Tally) {
    let deed = |room: usize| add(Table::Nodes, [3, 9, 2, 2], &HAND_WORDS, room);
    tally.test("a deed added by hand", deed(86) == sheet(5, &WITH_DEED));
    tally.test("a deed added by hand, one word short", deed(85) == Err(refusal(25)));
    let ban = |room: usize| add(Table::Edges, [4, 2, 4, 2], &HAND_WORDS, room);
    tally.test("a ban added by hand", ban(99) == sheet(8, &WITH_BAN));
    tally.test("a ban added by hand, no room", ban(0) == Err(refusal(25)));
    let c = add(Table::Edges, [3, 3, 5, 1], &sheet_a().words(), 70);
    tally.test("A becomes C", c == sheet(4, &sheet_c().words()));
    let first = add(Table::Nodes, [1, 11, 0, 1], &[1, 1, 0, 0, 6, 6], 10);
    tally.test("the first node", first == sheet(0, &[1, 1, 1, 0, 6, 10, 1, 11, 0, 1]));
    let lone = [1, 2, 2, 0, 6, 14, 1, 11, 0, 2, 2, 21, 0, 3];
    let edge = add(Table::Edges, [1, 0, 1, 2], &lone, 18);
    let says = [1, 2, 2, 1, 6, 14, 1, 11, 0, 2, 2, 21, 0, 3, 1, 0, 1, 2];
    tally.test("the first edge", edge == sheet(0, &says));
}

/// Of the sheet by hand: category 6, row 1, is office 1's alone.
const REFUSED: [(Table, Row, u32); 22] = [
    (Table::Nodes, [0, 0, 0, 0], 6),
    (Table::Nodes, [5, 5, 0, 1], 6),
    (Table::Nodes, [2, 0, 0, 4], 7),
    (Table::Nodes, [4, 9, 4, 1], 7),
    (Table::Nodes, [3, 9, 1, 0], 8),
    (Table::Nodes, [3, 9, 1, 4], 8),
    (Table::Nodes, [3, 9, 4, 4], 8),
    (Table::Nodes, [3, 9, 4, 1], 9),
    (Table::Nodes, [2, 6, 0, 2], 9),
    (Table::Edges, [6, 7, 7, 0], 11),
    (Table::Edges, [0, 0, 1, 1], 11),
    (Table::Edges, [2, 7, 7, 0], 12),
    (Table::Edges, [1, 0, 7, 1], 12),
    (Table::Edges, [1, 1, 0, 1], 13),
    (Table::Edges, [2, 4, 4, 0], 13),
    (Table::Edges, [2, 2, 2, 0], 14),
    (Table::Edges, [2, 2, 1, 2], 15),
    (Table::Edges, [2, 2, 1, 3], 15),
    (Table::Edges, [1, 0, 1, 2], 15),
    (Table::Edges, [2, 3, 2, 4], 15),
    (Table::Edges, [1, 0, 2, 1], 16),
    (Table::Edges, [5, 4, 6, 1], 16),
];

fn refused_by_hand(tally: &mut Tally) {
    for (table, row, number) in REFUSED {
        for room in [0, 999] {
            let said = add(table, row, &HAND_WORDS, room);
            let name = format!("not added by hand: {table:?} {row:?} into {room}");
            tally.test(&name, said == Err(refusal(number)));
        }
    }
    let bad = Err(Refusal { number: 5, sheet: 1, row: 0 });
    let said = add(Table::Nodes, [0, 0, 0, 0], &JOINT_WORDS[..69], 0);
    tally.test("a bad sheet before the row", said == bad);
}

fn outputs(tally: &mut Tally) {
    let request = |operation: u32, numbers: [u32; 6], out_len: usize| {
        let (first, second) = (bytes_of(&HAND_WORDS), vec![1, 2, 3]);
        expect(&Request { operation, numbers, first, second, out_len, fill: 70 })
    };
    let found = request(finding(Table::Edges), [4, 2, 4, 77, 77, 77], 2);
    tally.test("a search's reply", found.reply == [0, 0, 0, 0, 8, 0, 0, 2]);
    tally.test("a search leaves the fill", found.output == [70, 70]);
    let long = request(adding(Table::Nodes), [3, 9, 2, 2, 77, 77], 88);
    tally.test("an addition's reply", long.reply == [0, 0, 0, 5, 86, 0, 0, 88]);
    let (words, rest) = long.output.split_at(86);
    tally.test("a sheet with a row more and the fill", words == WITH_DEED && rest == [70, 70]);
    let short = request(adding(Table::Edges), [4, 2, 4, 2, 77, 77], 85);
    tally.test("an addition without room", short.reply == [25, 0, 0, 0, 0, 0, 0, 85]);
    tally.test("an addition without room leaves the fill", short.output == [70; 85]);
}

/// A sheet with one identity more, as it is written by identities alone.
fn by_identities(tally: &mut Tally) {
    let (mut rows, mut same) = ([0, 0], true);
    for number in 0..1_200 {
        let random = &mut Random::for_case(29, number);
        let (words, table) = (some_sheet(random), TABLES[number as usize % 2]);
        let Some(row) = right(random, table, &words, None) else {
            continue;
        };
        rows[table as usize] += 1;
        let Answer { written, .. } = add(table, row, &words, MOST_OUTPUT).unwrap_or_default();
        let mut contents = Contents::of(&words);
        let nodes = node_rows(&words);
        let end = |row: u32| -> Identity {
            let [sort, number, variant, _] = nodes[row as usize];
            (sort, number, variant)
        };
        let [first, second, third, offices] = row;
        match table {
            Table::Nodes => contents.nodes.insert((first, second, third), offices),
            Table::Edges => contents.edges.insert((first, end(second), end(third)), offices),
        };
        let accepted = judge_words(&written) == ACCEPTED;
        same &= accepted && written == contents.words(office_count(&words));
    }
    tally.test("a row more is an identity more", same);
    tally.test("enough rows are compared", rows.iter().all(|&count| count > 300));
}

/// Each sheet is built of rows that are added or searched, and what comes of it is listed
/// or checked; after an addition its row is searched and question 1 is asked.
fn built(tally: &mut Tally) {
    let plan = Plan::new(5, Counts { built: 28, ..NONE });
    let cases: Vec<Case> =
        (plan.before_built()..plan.before_removals()).map(|number| plan.case(number)).collect();
    let faults = cases.iter().filter(|case| case.about.own_fault.is_some());
    tally.test("no built sheet is another", faults.count() == 0);
    for (at, group) in cases.chunks(ASKED).enumerate() {
        let operations: Vec<u32> = group.iter().map(|case| case.request.operation).collect();
        let (rows, after) = operations.split_at(20);
        let ends =
            rows[..19].iter().all(|it| (32..=35).contains(it)) && [0, 30].contains(&rows[19]);
        let one = [[34, 32], [35, 33]].contains(&[after[0], after[1]]);
        let name = format!("sheet {at} is built and asked: {operations:?}");
        tally.test(&name, ends && one && after[2..] == [1; 6]);
        let additions: Vec<&Case> =
            group[..20].iter().filter(|case| case.request.operation >= 34).collect();
        let follows = |two: &[&Case]| {
            let length = two[0].expected.reply[4] as usize;
            words_of(&two[1].request.first) == two[0].expected.output[..length]
        };
        tally.test(&format!("sheet {at} grows"), additions.windows(2).all(follows));
    }
    let other = Plan::new(6, Counts { built: 28, ..NONE });
    let bytes = |plan: &Plan, at: usize| plan.case(plan.before_built() + at).request.bytes();
    let same = (0..cases.len()).filter(|&at| bytes(&plan, at) == bytes(&other, at)).count();
    tally.test("another seed builds other sheets", same == 0);
    let longer = Plan::new(5, Counts { built: 58, ..NONE });
    let same = (0..cases.len()).all(|at| bytes(&plan, at) == bytes(&longer, at));
    tally.test("a built sheet follows from seed and number", same);
}

/// No case misses its aim, and no two faults meet that are not among the pairs.
fn made_cases(tally: &mut Tally) {
    let plan = Plan::new(5, Counts { additions: CASES, ..NONE });
    let all: Vec<Case> =
        (plan.before_additions()..plan.before_traces()).map(|number| plan.case(number)).collect();
    let slips = all.iter().filter(|case| case.about.own_fault.is_some()).count();
    tally.test("no addition misses its aim", slips == 0);
    let kinds: BTreeSet<&str> = all.iter().map(|case| case.about.kind).collect();
    for (kind, _) in MANNERS {
        tally.test(&format!("some cases are of the kind {kind}"), kinds.contains(kind));
    }
    let mut unknown = BTreeSet::new();
    for case in &all {
        let addition = Addition::of(&case.request).filter(|_| case.expected.reply[1] == 0);
        let Some(addition) = addition else { continue };
        let faults = addition.faults();
        for (at, &first) in faults.iter().enumerate() {
            let others = faults[at + 1..].iter().map(|&second| [first, second]);
            unknown.extend(others.filter(|pair| !pairs_of(addition.table).contains(pair)));
        }
    }
    tally.test(&format!("no other pairs of faults: {unknown:?}"), unknown.is_empty());
}

/// The random cases and the tours of small sheets; and those of full tables for what
/// shows only there.
fn distinguished(tally: &mut Tally) {
    let plan = Plan::new(1, Counts { additions: CASES, ..NONE });
    let first = plan.before_additions() + named::additions::all().len();
    let cases = (first..plan.before_traces()).map(|number| plan.case(number));
    let small = |case: &Case| case.request.first.len() < WORD * 2_000;
    let (cases, full): (Vec<Case>, Vec<Case>) = cases.partition(small);
    let many = full.len();
    tally.test(&format!("{many} cases are of full tables"), (40..=120).contains(&many));
    told_apart(tally, &cases, misread::positions::WRONG.iter(), ENOUGH);
    told_apart(tally, &cases, misread::additions::WRONG.iter(), ENOUGH);
    told_apart(tally, &cases, misread::addition_refusals::WRONG.iter(), ENOUGH);
    told_apart(tally, &full, misread::addition_refusals::WRONG_AT_LIMITS.iter(), 1);
}
