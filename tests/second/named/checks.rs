//! Named cases of the two checks: shapes, limits, lengths, headers and layouts.

use crate::model::limits::*;
use crate::model::sheet::*;
use crate::named::rows;
use crate::named::sister::*;
use crate::trial::operation::{CHECK_BYTES, CHECK_WORDS, NO_OPERATIONS, UNKNOWN};
use crate::trial::request::MOST_PAYLOAD;

#[derive(Clone)]
pub struct Named {
    pub name: String,
    pub operation: u32,
    pub payload: Vec<u8>,
    /// refusal number and row
    pub says: (u32, u32),
}

pub const GOOD: (u32, u32) = (0, 0);

#[derive(Default)]
pub struct List {
    cases: Vec<Named>,
}

impl List {
    fn add(&mut self, name: &str, operation: u32, payload: Vec<u8>, says: (u32, u32)) {
        let way = match operation {
            CHECK_WORDS => "words",
            CHECK_BYTES => "bytes",
            _ => "unknown",
        };
        let name = format!("{name} ({way})");
        self.cases.push(Named { name, operation, payload, says });
    }

    fn by_words(&mut self, name: &str, bytes: &[u8], says: (u32, u32)) {
        self.add(name, CHECK_WORDS, bytes.to_vec(), says);
    }

    fn by_bytes(&mut self, name: &str, bytes: &[u8], says: (u32, u32)) {
        self.add(name, CHECK_BYTES, bytes.to_vec(), says);
    }

    fn both(&mut self, name: &str, words: &[u32], says: (u32, u32)) {
        let bytes = bytes_of(words);
        self.by_words(name, &bytes, says);
        self.by_bytes(name, &bytes, says);
    }

    pub fn sheet(&mut self, name: &str, sheet: &Sheet, says: (u32, u32)) {
        self.both(name, &sheet.words(), says);
    }

    /// The sheet with one word replaced.
    pub fn changed(&mut self, name: &str, sheet: &Sheet, at: usize, word: u32, says: (u32, u32)) {
        let mut words = sheet.words();
        words[at] = word;
        self.both(name, &words, says);
    }
}

pub fn all() -> Vec<Named> {
    let mut list = List::default();
    sister_ships(&mut list);
    shapes(&mut list);
    limits(&mut list);
    lengths(&mut list);
    headers(&mut list);
    layouts(&mut list);
    order_of_header_checks(&mut list);
    rows::add_all(&mut list);
    unknown_operations(&mut list);
    list.cases
}

fn sister_ships(list: &mut List) {
    list.sheet("sheet A", &sheet_a(), GOOD);
    list.sheet("sheet B", &sheet_b(), GOOD);
    list.sheet("sheet C", &sheet_c(), GOOD);
    list.sheet("the joint of A and B", &joint_of_a_and_b(), GOOD);
}

fn categories(count: usize) -> Vec<Row> {
    (1..=count as u32).map(|number| [CATEGORY, number, 0, 1]).collect()
}

fn containments(count: usize, most: usize) -> Vec<Row> {
    let count = count as u32;
    let pairs = (0..count).flat_map(|from| (0..count).map(move |to| (from, to)));
    let apart = pairs.filter(|(from, to)| from != to);
    apart.map(|(from, to)| [CONTAINED, from, to, 1]).take(most).collect()
}

fn ring(count: usize) -> Sheet {
    let steps = (0..count).map(|row| [CONTAINED, row as u32, ((row + 1) % count) as u32, 1]);
    Sheet { office_count: 1, nodes: categories(count), edges: steps.collect() }
}

pub fn crowded(nodes: usize, edges: usize) -> Sheet {
    Sheet { office_count: 1, nodes: categories(nodes), edges: containments(nodes, edges) }
}

/// As many categories as there may be nodes, and containments as there may be
/// edges.
pub fn full() -> Sheet {
    crowded(MOST_NODES, MOST_EDGES)
}

/// So many categories have a containment more than there may be edges.
const FEW: usize = 46;
const _: () = assert!(FEW * (FEW - 1) > MOST_EDGES);

fn shapes(list: &mut List) {
    list.sheet("a ring of three categories", &ring(3), GOOD);
    list.sheet(&format!("a ring of {MOST_NODES} categories"), &ring(MOST_NODES), GOOD);
    list.sheet("two equal categories", &ring(2), GOOD);
    let deeds = [[3, 31, 0, 1], [3, 31, u32::MAX, 1]];
    list.sheet("deed variants 0 and 4294967295", &Sheet::new(1, &deeds, &[]), GOOD);
    list.sheet("one deed of variant 0", &Sheet::new(1, &deeds[..1], &[]), GOOD);
    list.sheet("one deed of variant 4294967295", &Sheet::new(1, &deeds[1..], &[]), GOOD);
    let most =
        [[1, u32::MAX, 0, 1], [2, u32::MAX, 0, 1], [3, u32::MAX, u32::MAX, 1], [4, u32::MAX, 0, 1]];
    let edges = [[1, 0, 1, 1], [3, 1, 2, 1], [4, 1, 2, 1], [5, 2, 3, 1]];
    list.sheet("numbers of 4294967295", &Sheet::new(1, &most, &edges), GOOD);
    let ships = [[3, 31, 0, 1], [4, 41, 0, 1], [4, 42, 0, 1]];
    let applied = [[5, 0, 1, 1], [5, 0, 2, 1]];
    list.sheet("two sister ships one number apart", &Sheet::new(1, &ships, &applied), GOOD);
    let high = [[3, 31, 0, 1], [4, u32::MAX - 1, 0, 1], [4, u32::MAX, 0, 1]];
    list.sheet("two sister ships at the highest numbers", &Sheet::new(1, &high, &applied), GOOD);
    let signs = [[4, 0x7FFF_FFFF, 0, 1], [4, 0x8000_0000, 0, 1]];
    list.sheet("two sister ships about the sign bit", &Sheet::new(1, &signs, &[]), GOOD);
    let halves = [[2, 0x0000_FFFF, 0, 1], [2, 0x0001_0000, 0, 1], [2, 0x0100_0001, 0, 1]];
    list.sheet("numbers whose low bytes fall", &Sheet::new(1, &halves, &[]), GOOD);
}

fn limits(list: &mut List) {
    list.sheet("zero nodes", &Sheet::new(1, &[], &[]), GOOD);
    list.sheet("zero nodes, two offices", &Sheet::new(2, &[], &[]), GOOD);
    list.sheet("zero nodes, one edge", &Sheet::new(1, &[], &[[2, 0, 1, 1]]), (12, 0));
    list.sheet("one node, no edge", &Sheet::new(1, &[[4, 1, 0, 1]], &[]), GOOD);
    let (n, e) = (MOST_NODES, MOST_EDGES);
    list.sheet(&format!("n of {n}"), &crowded(n, 0), GOOD);
    list.sheet(&format!("n of {}", n + 1), &crowded(n + 1, 0), (4, 0));
    list.sheet(&format!("e of {e}"), &crowded(FEW, e), GOOD);
    list.sheet(&format!("e of {}", e + 1), &crowded(FEW, e + 1), (4, 0));
    list.sheet(&format!("n of {n} with e of {e}"), &full(), GOOD);
    for (n, e) in [(n, e + 1), (n + 1, e)] {
        let (name, over) = (format!("n of {n} with e of {e}"), bytes_of(&crowded(n, e).words()));
        list.by_words(&name, &over, (4, 0));
        list.by_bytes(&name, &over, (33, 0));
    }
    let mut last = full();
    last.edges[e - 1][3] = 0;
    list.sheet("the last edge of a full sheet", &last, (15, e as u32 - 1));
    last.nodes[n - 1][3] = 0;
    list.sheet("the last node of a full sheet", &last, (8, n as u32 - 1));
}

fn lengths(list: &mut List) {
    let empty = Sheet::new(1, &[], &[]).words();
    list.both("empty input", &[], (1, 0));
    list.both("one word", &empty[..1], (1, 0));
    list.both("5 words", &empty[..HEADER - 1], (1, 0));
    list.both("5 words, form 2", &[2, 1, 0, 0, 6], (1, 0));
    list.both("6 words", &empty, GOOD);
    list.both("6 words of 0", &[0; HEADER], (2, 0));
    list.both("7 words", &[1, 1, 0, 0, 6, 6, 0], (5, 0));
    remainders(list, &bytes_of(&empty));
    full_lengths(list);
}

fn remainders(list: &mut List, empty: &[u8]) {
    for length in [1, 2, 3, 21, 22, 23] {
        let name = format!("{length} bytes");
        list.by_words(&name, &empty[..length], (1, 0));
        list.by_bytes(&name, &empty[..length], (33, 0));
    }
    for length in [25, 26, 27] {
        let mut bytes = empty.to_vec();
        bytes.resize(length, 255);
        let name = format!("{length} bytes");
        list.by_words(&name, &bytes, GOOD);
        list.by_bytes(&name, &bytes, (33, 0));
    }
}

fn full_lengths(list: &mut List) {
    let full = bytes_of(&full().words());
    list.by_words(&format!("{MOST_WORDS} words"), &full, GOOD);
    list.by_bytes(&format!("{MOST_BYTES} bytes"), &full, GOOD);
    for length in [MOST_BYTES - 3, MOST_BYTES - 2, MOST_BYTES - 1] {
        list.by_words(&format!("{length} bytes"), &full[..length], (5, 0));
        list.by_bytes(&format!("{length} bytes"), &full[..length], (33, 0));
    }
    for length in [MOST_BYTES + 1, MOST_BYTES + 2, MOST_BYTES + 3] {
        let mut longer = full.clone();
        longer.resize(length, 1);
        list.by_words(&format!("{length} bytes"), &longer, GOOD);
        list.by_bytes(&format!("{length} bytes"), &longer, (33, 0));
    }
    for length in [MOST_BYTES + WORD, MOST_BYTES + 4 * WORD, MOST_PAYLOAD] {
        let mut longer = full.clone();
        longer.resize(length, 0);
        list.by_words(&format!("{} words", length / WORD), &longer, (5, 0));
        list.by_bytes(&format!("{length} bytes"), &longer, (33, 0));
    }
    for length in [MOST_PAYLOAD, MOST_PAYLOAD - 1] {
        list.by_words(&format!("{length} bytes of 0"), &vec![0; length], (2, 0));
        list.by_bytes(&format!("{length} bytes of 0"), &vec![0; length], (33, 0));
    }
    list.by_bytes(&format!("{MOST_BYTES} bytes of 0"), &vec![0; MOST_BYTES], (2, 0));
}

fn headers(list: &mut List) {
    let a = sheet_a();
    for form in [0, 2, 257, 0x0100_0000, u32::MAX] {
        list.changed(&format!("form {form}"), &a, 0, form, (2, 0));
    }
    for count in [0, MOST_OFFICES + 1, 257, 258, 0x0100_0000, u32::MAX] {
        list.changed(&format!("office count {count}"), &a, 1, count, (3, 0));
    }
    list.changed("office count 2 over marks of 1", &a, 1, 2, GOOD);
    for n in [MOST_NODES as u32 + 1, 1 << 30, (1 << 30) + 8, (2 << 30) + 8, (3 << 30) + 8, u32::MAX]
    {
        list.changed(&format!("n of {n} in the header"), &a, 2, n, (4, 0));
    }
    for e in [MOST_EDGES as u32 + 1, 1 << 30, (1 << 30) + 7, (2 << 30) + 7, (3 << 30) + 7, u32::MAX]
    {
        list.changed(&format!("e of {e} in the header"), &a, 3, e, (4, 0));
    }
    let m = u32::MAX;
    list.both("n and e of 4294967295", &[1, 1, m, m, 6, 2], (4, 0));
    list.both("header of 4294967295 but for form and count", &[1, 1, m, m, m, m], (4, 0));
    list.both("n of 1073741824 whose table overflows to none", &[1, 1, 1 << 30, 0, 6, 6], (4, 0));
    list.both("e of 1073741824 whose table overflows to none", &[1, 1, 0, 1 << 30, 6, 6], (4, 0));
}

fn layouts(list: &mut List) {
    let a = sheet_a();
    for offset in [0, 5, 7, 10, 1 << 30, u32::MAX] {
        list.changed(&format!("node offset {offset}"), &a, 4, offset, (5, 0));
    }
    for offset in [0, 6, 34, 37, 39, 42, 66, (1 << 30) + 38, u32::MAX] {
        list.changed(&format!("edge offset {offset}"), &a, 5, offset, (5, 0));
    }
    for n in [0, 7, 9, MOST_NODES as u32] {
        list.changed(&format!("n of {n} for 8"), &a, 2, n, (5, 0));
    }
    for e in [0, 6, 8, MOST_EDGES as u32] {
        list.changed(&format!("e of {e} for 7"), &a, 3, e, (5, 0));
    }
    let words = a.words();
    for less in [1, 2, 3, 4, 28, 60] {
        list.both(&format!("{less} words short"), &words[..66 - less], (5, 0));
    }
    for more in [1, 2, 3, 4, 28] {
        let mut longer = words.clone();
        longer.resize(66 + more, 1);
        list.both(&format!("{more} words too long"), &longer, (5, 0));
    }
    moved_tables(list, &words);
}

/// Offsets that agree with one another and with the length, yet not with the
/// document.
fn moved_tables(list: &mut List, words: &[u32]) {
    let mut later = words.to_vec();
    let row = [0; NODE_WIDTH];
    later.splice(HEADER..HEADER, row);
    (later[4], later[5]) = (10, 42);
    list.both("both tables four words later", &later, (5, 0));
    let mut apart = words.to_vec();
    apart.splice(38..38, row);
    apart[5] = 42;
    list.both("the edge table four words later", &apart, (5, 0));
}

/// Two faults at once: the one that stands earlier in the table, and the
/// earlier row, wins.
fn order_of_header_checks(list: &mut List) {
    let (n, e) = (MOST_NODES as u32 + 1, MOST_EDGES as u32 + 1);
    list.both("form before office count", &[2, 0, n, e, 0, 0], (2, 0));
    list.both("office count before n", &[1, 0, n, e, 0, 0], (3, 0));
    list.both("n before the offsets", &[1, 1, n, 0, 0, 0], (4, 0));
    list.both("e before the offsets", &[1, 1, 0, e, 0, 0], (4, 0));
    list.both("length before the rows", &[1, 1, 1, 0, 6, 10, 0, 0, 0], (5, 0));
    let mut layout = sheet_a().words();
    (layout[5], layout[6]) = (0, 0);
    list.both("offset before the rows", &layout, (5, 0));
}

fn unknown_operations(list: &mut List) {
    let a = bytes_of(&sheet_a().words());
    for operation in NO_OPERATIONS {
        list.add(&format!("operation {operation} on sheet A"), operation, a.clone(), (UNKNOWN, 0));
    }
    let lowest = NO_OPERATIONS[0];
    list.add(&format!("operation {lowest} on nothing"), lowest, Vec::new(), (UNKNOWN, 0));
    let most = vec![255; MOST_PAYLOAD];
    let name = format!("operation 4294967295 on {MOST_PAYLOAD} bytes");
    list.add(&name, u32::MAX, most, (UNKNOWN, 0));
}
