//! Files for a fuzzer to begin with. Of what the counter is asked: office or rule,
//! kind, person, deed, folio and the room in bytes, a word each, and the file. Of the
//! listings: the room in words, a word, and the text. Of their lines: the line, without
//! its line feed. Of rows searched and added: the row's four words and the room in
//! words, a word each, and the sheet. Of traces: the timeout, the room in words and how many
//! words the rows have, a word each, the rows, and the sheet. Of lent tables: the timeout and
//! how many words the row has, the table, the row, and the sheet.

use std::collections::BTreeSet;
use std::fs;
use std::io;
use std::ops::Range;
use std::path::Path;

use crate::cases::plan::{Counts, Plan};
use crate::cases::tables::Tables;
use crate::model::answer::WITNESS;
use crate::model::limits::WORD;
use crate::model::listing::lines;
use crate::model::sheet::{bytes_of, words_of};
use crate::run::tally::Tally;
use crate::trial::expect::row_of;
use crate::trial::lending::Lending;
use crate::trial::operation::{table_of, way_of, Way, READ_LISTING, TRACE};
use crate::trial::request::Request;

/// The random ones of them, and how many may be long: a fuzzer is slow on those.
const RANDOM: usize = 600;
const LONG: usize = 4_096;
const MOST_LONG: usize = 12;

/// Longer texts than this are far over the limits, and no seeds.
const MOST_TEXT: usize = 32_000;

/// What the counter is asked of a file, what is read as a listing, each line of it, rows
/// that are searched and added, traces, and rows on lent tables.
#[derive(Clone, Copy)]
pub enum Seeds {
    Files,
    Texts,
    Lines,
    Rows,
    Traces,
    Lent,
}

/// So many random cases of one kind, and no other kind is drawn. Lines need none: what can
/// be wrong with a line is in the texts that are not random.
pub fn write(sort: Seeds, seed: u64, folder: &str) -> Tally {
    let counts = match sort {
        Seeds::Files => Counts { ways: RANDOM, ..Counts::default() },
        Seeds::Texts => Counts { listings: RANDOM, ..Counts::default() },
        Seeds::Lines | Seeds::Lent => Counts::default(),
        Seeds::Rows => Counts { additions: RANDOM, ..Counts::default() },
        Seeds::Traces => Counts { traces: RANDOM, ..Counts::default() },
    };
    let plan = Plan::new(seed, counts);
    let numbers = match sort {
        Seeds::Files => plan.before_ways()..plan.before_listings(),
        Seeds::Texts | Seeds::Lines => plan.before_listings()..plan.before_additions(),
        Seeds::Rows => plan.before_additions()..plan.before_traces(),
        Seeds::Traces | Seeds::Lent => plan.before_traces()..plan.before_full_sheets(),
    };
    let seeds_of = match sort {
        Seeds::Files => of_counter,
        Seeds::Texts => of_listing,
        Seeds::Lines => of_lines,
        Seeds::Rows => of_row,
        Seeds::Traces | Seeds::Lent => of_trace,
    };
    let written = match sort {
        Seeds::Lent => write_lent(seed, folder),
        _ => write_all(&plan, numbers, folder, seeds_of),
    };
    let mut tally = Tally::default();
    tally.test(&format!("seeds in {folder}: {written:?}"), written.is_ok_and(|count| count > 0));
    tally
}

/// Each once, named by its case and its place among that case's seeds.
fn write_all(
    plan: &Plan,
    numbers: Range<usize>,
    folder: &str,
    seeds_of: fn(&Request) -> Vec<Vec<u8>>,
) -> io::Result<usize> {
    let (mut seen, mut long) = (BTreeSet::new(), 0);
    for number in numbers {
        for (at, bytes) in seeds_of(&plan.case(number).request).into_iter().enumerate() {
            long += usize::from(bytes.len() > LONG);
            if (bytes.len() <= LONG || long <= MOST_LONG) && !seen.contains(&bytes) {
                fs::write(Path::new(folder).join(format!("{number:06}-{at}")), &bytes)?;
                seen.insert(bytes);
            }
        }
    }
    Ok(seen.len())
}

/// All by hand, and as many as there are random ones of another kind.
fn write_lent(seed: u64, folder: &str) -> io::Result<usize> {
    let tables = Tables::new(seed, RANDOM);
    let mut seen = BTreeSet::new();
    for number in 0..tables.len() {
        let Lending { watch, sheet, timeout, row } = tables.case(number).lending;
        let numbers = [&[timeout, row.len() as u32][..], &watch.words(), &row].concat();
        let bytes = after(&numbers, &bytes_of(&sheet));
        if bytes.len() <= LONG && !seen.contains(&bytes) {
            fs::write(Path::new(folder).join(format!("{number:06}")), &bytes)?;
            seen.insert(bytes);
        }
    }
    Ok(seen.len())
}

fn of_counter(request: &Request) -> Vec<Vec<u8>> {
    let Some((Way::Counter, question)) = way_of(request.operation) else {
        return Vec::new();
    };
    let [first, a, b, c, d, _] = request.numbers;
    let [kind, person, deed, folio] = if question == WITNESS { [a, b, c, d] } else { [0, a, b, c] };
    let room = (WORD * request.out_len) as u32;
    vec![after(&[first, kind, person, deed, folio, room], &request.first)]
}

fn of_listing(request: &Request) -> Vec<Vec<u8>> {
    let own = is_text(request).then(|| after(&[request.out_len as u32], &request.first));
    own.into_iter().collect()
}

/// Those of long texts are like one another.
fn of_lines(request: &Request) -> Vec<Vec<u8>> {
    let bare = |line: &[u8]| line.strip_suffix(b"\n").unwrap_or(line).to_vec();
    let own = is_text(request) && request.first.len() <= LONG;
    own.then(|| lines(&request.first).map(bare)).into_iter().flatten().collect()
}

fn of_row(request: &Request) -> Vec<Vec<u8>> {
    let [first, second, third, offices] = row_of(request);
    let numbers = [first, second, third, offices, request.out_len as u32];
    let own = table_of(request.operation).map(|_| after(&numbers, &request.first));
    own.into_iter().collect()
}

/// Both legs of a trace are the same here.
fn of_trace(request: &Request) -> Vec<Vec<u8>> {
    let rows = words_of(&request.second);
    let numbers = [request.numbers[0], request.out_len as u32, rows.len() as u32];
    let own = request.operation == TRACE && request.first.len() + request.second.len() <= LONG;
    own.then(|| after(&[&numbers[..], &rows].concat(), &request.first)).into_iter().collect()
}

fn is_text(request: &Request) -> bool {
    request.operation == READ_LISTING && request.first.len() <= MOST_TEXT
}

fn after(numbers: &[u32], bytes: &[u8]) -> Vec<u8> {
    [&bytes_of(numbers), bytes].concat()
}
