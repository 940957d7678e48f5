//! What reading and writing a listing must have been asked and answered, goal by
//! goal. The goals of a single line stand in `lines`.

use std::collections::BTreeSet;

use crate::goals::lines;
use crate::goals::rooms::{chosen, room_goal, ROOMS};
use crate::model::limits::{MOST_EDGES, MOST_NODES, WORD};
use crate::model::listing::*;
use crate::model::sheet::*;
use crate::trial::request::{Expected, Request};

/// The faults of a line, in their order.
const FAULTS: [u32; 4] = [40, 41, 42, 14];

/// So many good lines, far more than a sheet has rows.
const FAR: usize = 10_000;

const READ: [&str; 8] = [
    "no bytes",
    "in the order of the sheet",
    "the last row first",
    "every edge before every node",
    "a node between edges",
    "the most nodes",
    "the most edges",
    "the most of both",
];

const ENDS: [&str; 3] = ["the first end", "the second end", "both ends"];

const LIMITS: [&str; 4] = ["by one node", "by one edge", "by both", "in ten thousand lines"];

pub fn needed_reading() -> Vec<String> {
    let all = FAULTS.into_iter().chain([43, 4, 25]);
    let mut goals: Vec<String> = all.map(|number| format!("refusal {number}")).collect();
    goals.extend(lines::needed());
    goals.extend(READ.map(|goal| format!("read, {goal}")));
    goals.extend(WORDS.iter().map(|word| format!("read, {} lines", word.word)));
    for word in &WORDS {
        goals.push(format!("42, {} again", word.word));
        if word.kind.is_some() {
            goals.extend(ENDS.map(|end| format!("43, {}, {end}", word.word)));
        }
    }
    goals.extend(["43, not the last", "43, as another type", "43, as another variant"].map(told));
    goals.extend(["42, next to it", "42, with its ends missing"].map(told));
    goals.push(told("40, and no line is one of the nine"));
    goals.extend(LIMITS.map(|goal| format!("4, {goal}")));
    goals.extend(FAULTS.map(|number| format!("{number}, behind ten thousand good lines")));
    goals.push(told("42, of a late row behind ten thousand good lines"));
    for first in FAULTS {
        goals.extend(FAULTS.map(|second| format!("{first}, and {second} behind it")));
    }
    for number in FAULTS.into_iter().chain([43]) {
        goals.push(format!("{number}, and over the limits"));
        goals.push(format!("{number}, and no room"));
    }
    goals.extend(FAULTS.map(|number| format!("{number}, and an end without a node")));
    goals.push(told("4, and no room"));
    goals.extend(ROOMS.map(told));
    goals
}

fn told(goal: &str) -> String {
    goal.to_string()
}

/// What each line would be by itself, behind all good ones before it.
struct Page<'a> {
    lines: Vec<&'a [u8]>,
    entries: Vec<Result<Entry, u32>>,
    nodes: BTreeSet<Entry>,
    edges: usize,
}

impl<'a> Page<'a> {
    fn of(text: &'a [u8]) -> Page<'a> {
        let lines: Vec<&[u8]> = lines(text).collect();
        let mut before = BTreeSet::new();
        let mut entries = Vec::new();
        for line in &lines {
            let entry = line_entry(line, &before);
            before.extend(entry);
            entries.push(entry);
        }
        let (nodes, edges): (BTreeSet<Entry>, BTreeSet<Entry>) =
            before.into_iter().partition(|entry| matches!(entry, Entry::Node(_)));
        Page { lines, entries, nodes, edges: edges.len() }
    }

    /// Which of an edge line's ends have no node line.
    fn lacks(&self, line: usize) -> [bool; 2] {
        match self.entries[line] {
            Ok(Entry::Edge((_, from, to))) => {
                [from, to].map(|end| !self.nodes.contains(&Entry::Node(end)))
            }
            _ => [false, false],
        }
    }

    fn over(&self) -> bool {
        self.nodes.len() > MOST_NODES || self.edges > MOST_EDGES
    }

    fn word(&self, line: usize) -> &'static str {
        shape(self.lines[line]).map_or("", |shape| shape.word.word)
    }
}

/// The goals one case meets, from what is expected of it.
pub fn met_reading(request: &Request, expected: &Expected) -> Vec<String> {
    let page = Page::of(&request.first);
    let [number, _, line, _, count, ..] = expected.reply;
    let line = line as usize;
    let mut goals = match number {
        0 => was_read(&page),
        _ => vec![format!("refusal {number}")],
    };
    if number == 40 && page.lines.len() > 1 && page.entries.iter().all(|it| *it == Err(40)) {
        goals.push(told("40, and no line is one of the nine"));
    }
    match number {
        40 | 41 => goals.extend(lines::met(number, page.lines[line])),
        42 => goals.extend(repeated(&page, line)),
        43 => goals.extend(without_node(&page, line)),
        4 => goals.extend(chosen(&LIMITS, &limits(&page), "4")),
        _ => {}
    }
    if FAULTS.contains(&number) || number == 43 {
        goals.extend(besides(&page, number, line, request.out_len));
    }
    if number == 4 && request.out_len == 0 {
        goals.push(told("4, and no room"));
    }
    let length = match number {
        0 => Some(count as usize),
        25 => read(&request.first, usize::MAX).ok().map(|answer| answer.written.len()),
        _ => None,
    };
    goals.extend(length.and_then(|it| room_goal(it, request.out_len)).map(told));
    goals
}

fn was_read(page: &Page) -> Vec<String> {
    let rows: Vec<Entry> = page.entries.iter().copied().flatten().collect();
    let is_edge = |entry: &Entry| matches!(entry, Entry::Edge(_));
    let rising = rows.windows(2).all(|pair| pair[0] < pair[1]);
    let falling = rows.windows(2).all(|pair| pair[0] > pair[1]);
    let both = page.edges > 0;
    let edges_first = rows.windows(2).all(|pair| is_edge(&pair[0]) || !is_edge(&pair[1]));
    let mixed =
        rows.windows(3).any(|three| [0, 1, 2].map(|at| is_edge(&three[at])) == [true, false, true]);
    let most = [page.nodes.len() == MOST_NODES, page.edges == MOST_EDGES];
    let met = [
        rows.is_empty(),
        both && rising,
        both && falling,
        both && edges_first,
        mixed,
        most[0],
        most[1],
        most == [true, true],
    ];
    let mut goals = chosen(&READ, &met, "read");
    let words: BTreeSet<&str> = (0..page.lines.len()).map(|line| page.word(line)).collect();
    goals.extend(words.into_iter().map(|word| format!("read, {word} lines")));
    goals.extend(page.lines.iter().flat_map(|line| lines::met(0, line)));
    goals
}

fn repeated(page: &Page, line: usize) -> Vec<String> {
    let mut goals = vec![format!("42, {} again", page.word(line))];
    let first = page.lines.iter().position(|other| *other == page.lines[line]).unwrap_or(line);
    if first + 1 == line {
        goals.push(told("42, next to it"));
    }
    if first >= FAR - 200 {
        goals.push(told("42, of a late row behind ten thousand good lines"));
    }
    if page.lacks(first) != [false, false] {
        goals.push(told("42, with its ends missing"));
    }
    goals
}

fn without_node(page: &Page, line: usize) -> Vec<String> {
    let which = match page.lacks(line) {
        [true, true] => ENDS[2],
        [true, false] => ENDS[0],
        _ => ENDS[1],
    };
    let mut goals = vec![format!("43, {}, {which}", page.word(line))];
    if (line + 1..page.lines.len()).any(|later| page.lacks(later) != [false, false]) {
        goals.push(told("43, not the last"));
    }
    let Ok(Entry::Edge((_, from, to))) = page.entries[line] else {
        return goals;
    };
    let missing = [from, to].into_iter().zip(page.lacks(line)).filter(|(_, lacks)| *lacks);
    for ((sort, number, _), _) in missing {
        let nodes = || {
            page.nodes.iter().filter_map(|entry| match entry {
                Entry::Node(node) if node.1 == number => Some(node.0),
                _ => None,
            })
        };
        if nodes().any(|other| other != sort) {
            goals.push(told("43, as another type"));
        }
        if nodes().any(|other| other == sort) {
            goals.push(told("43, as another variant"));
        }
    }
    goals
}

/// In the order of the goals.
fn limits(page: &Page) -> [bool; 4] {
    let above = [page.nodes.len() > MOST_NODES, page.edges > MOST_EDGES];
    [
        above == [true, false] && page.nodes.len() == MOST_NODES + 1,
        above == [false, true] && page.edges == MOST_EDGES + 1,
        above == [true, true],
        page.lines.len() >= FAR,
    ]
}

/// What else is wrong with a text that this line's fault refuses.
fn besides(page: &Page, number: u32, line: usize, room: usize) -> Vec<String> {
    let behind: BTreeSet<u32> =
        page.entries[line + 1..].iter().filter_map(|entry| entry.err()).collect();
    let mut goals: Vec<String> =
        behind.iter().map(|second| format!("{number}, and {second} behind it")).collect();
    if page.over() {
        goals.push(format!("{number}, and over the limits"));
    }
    if room == 0 {
        goals.push(format!("{number}, and no room"));
    }
    if line >= FAR {
        goals.push(format!("{number}, behind ten thousand good lines"));
    }
    if number != 43 && (0..page.lines.len()).any(|it| page.lacks(it) != [false, false]) {
        goals.push(format!("{number}, and an end without a node"));
    }
    goals
}

const WRITTEN: [&str; 6] = [
    "no rows",
    "nodes alone",
    "variant 0",
    "numbers of ten digits",
    "the most of both",
    "a remainder is dropped",
];

const TEXT_ROOMS: [&str; 4] =
    ["not a byte to spare", "one byte short", "less than a word to spare", "no room at all"];

pub fn needed_writing() -> Vec<String> {
    let numbers = (1..=17).chain([28, 25]);
    let mut goals: Vec<String> = numbers.map(|number| format!("refusal {number}")).collect();
    goals.extend(WRITTEN.map(|goal| format!("written, {goal}")));
    goals.extend(WORDS.iter().map(|word| format!("written, {} lines", word.word)));
    goals.extend((0..WORD).map(|more| format!("written, {more} bytes in the last word")));
    goals.extend(TEXT_ROOMS.map(told));
    goals.extend(["28, and no room", "25, of one office"].map(told));
    goals
}

/// The goals one case meets, from what is expected of it.
pub fn met_writing(request: &Request, expected: &Expected) -> Vec<String> {
    let words = words_of(&request.first);
    let [number, ..] = expected.reply;
    let mut goals = match number {
        0 => was_written(request, &words, expected.reply[4] as usize),
        _ => vec![format!("refusal {number}")],
    };
    if number == 28 && request.out_len == 0 {
        goals.push(told("28, and no room"));
    }
    if matches!(number, 0 | 25) {
        goals.extend(text_room(typed(&words).len(), WORD * request.out_len).map(told));
        goals.extend((number == 25).then(|| told("25, of one office")));
    }
    goals
}

fn was_written(request: &Request, words: &[u32], length: usize) -> Vec<String> {
    let nodes = node_rows(words);
    let met = [
        nodes.is_empty(),
        !nodes.is_empty() && edge_count(words) == 0,
        nodes.iter().any(|row| row[0] == DEED && row[2] == 0),
        nodes.iter().any(|row| row[1] >= 1_000_000_000),
        is_full(words),
        request.first.len() % WORD != 0,
    ];
    let mut goals = chosen(&WRITTEN, &met, "written");
    let node = |sort: u32| nodes.iter().any(|row| row[0] == sort);
    let edge = |kind: u32| edge_rows(words).any(|row| row[0] == kind);
    for word in &WORDS {
        if word.kind.map_or(node(word.sorts[0]), edge) {
            goals.push(format!("written, {} lines", word.word));
        }
    }
    if length > 0 {
        goals.push(format!("written, {} bytes in the last word", length % WORD));
    }
    goals
}

/// For a text of so many bytes.
fn text_room(length: usize, room: usize) -> Option<&'static str> {
    match room {
        0 if length > 0 => Some(TEXT_ROOMS[3]),
        _ if room == length => Some(TEXT_ROOMS[0]),
        _ if room + 1 == length => Some(TEXT_ROOMS[1]),
        _ if room > length && room < length + WORD => Some(TEXT_ROOMS[2]),
        _ => None,
    }
}
