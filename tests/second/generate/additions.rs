//! Rows to be searched and to be added: at each place of a table, there already, with
//! just these faults, and any words at all. The sheet is always an accepted one.

use crate::generate::damage::bad_mark;
use crate::generate::marks::part_of;
use crate::generate::random::Random;
use crate::model::addition::{row_faults, twice};
use crate::model::marks::all_marks;
use crate::model::place::Place;
use crate::model::position::{key_of, Key, Table};
use crate::model::sheet::*;

/// How often a draw is tried again before it is given up.
const TRIES: usize = 120;

/// Two numbers that can refuse one row, in their order. A type or a kind that there is
/// not stands in no sheet, nor does any other row with a fault but for its offices: so
/// 9 meets 8 alone, and 16 meets 15 alone.
pub const NODE_PAIRS: [[u32; 2]; 13] = [
    [6, 7],
    [6, 8],
    [7, 8],
    [8, 9],
    [6, 25],
    [7, 25],
    [8, 25],
    [9, 25],
    [6, 4],
    [7, 4],
    [8, 4],
    [9, 4],
    [4, 25],
];

pub const EDGE_PAIRS: [[u32; 2]; 23] = [
    [11, 12],
    [11, 13],
    [11, 15],
    [12, 13],
    [12, 14],
    [12, 15],
    [13, 14],
    [13, 15],
    [14, 15],
    [15, 16],
    [11, 25],
    [12, 25],
    [13, 25],
    [14, 25],
    [15, 25],
    [16, 25],
    [11, 4],
    [12, 4],
    [13, 4],
    [14, 4],
    [15, 4],
    [16, 4],
    [4, 25],
];

pub fn pairs_of(table: Table) -> &'static [[u32; 2]] {
    match table {
        Table::Nodes => &NODE_PAIRS,
        Table::Edges => &EDGE_PAIRS,
    }
}

/// The numbers of a row itself.
pub fn numbers_of(table: Table) -> &'static [u32] {
    match table {
        Table::Nodes => &[6, 7, 8, 9],
        Table::Edges => &[11, 12, 13, 14, 15, 16],
    }
}

/// Where a new row stands among so many that there were. Into an empty table it is the
/// only one.
pub fn place_among(row: usize, count: usize) -> Place {
    match row {
        _ if count == 0 => Place::Only,
        0 => Place::First,
        _ if row == count => Place::Last,
        _ => Place::Middle,
    }
}

/// A row that can be added, at this place if there is one; none where every edge that
/// could be is there.
pub fn right(
    random: &mut Random,
    table: Table,
    words: &[u32],
    place: Option<Place>,
) -> Option<Row> {
    let rows = table.rows(words);
    let fits = |row: &Row| place.is_none_or(|place| place == place_of(&rows, row));
    match table {
        Table::Nodes => {
            let mut drawn = (0..TRIES).map(|_| new_node(random, words));
            drawn.find(&fits).or_else(|| Some(new_node(random, words)))
        }
        Table::Edges => {
            let all = absent(words);
            let wanted: Vec<Row> = all.iter().filter(|row| fits(row)).copied().collect();
            let some = if wanted.is_empty() { all } else { wanted };
            let [kind, from, to, common] = *some.get(random.below(some.len().max(1)))?;
            Some([kind, from, to, part_of(random, common, 1)])
        }
    }
}

/// Where a new row stands among these, which rise.
fn place_of(rows: &[Row], row: &Row) -> Place {
    match (rows.first(), rows.last()) {
        (Some(first), _) if key_of(*row) < key_of(*first) => Place::First,
        (_, Some(last)) if key_of(*row) > key_of(*last) => Place::Last,
        (None, _) => Place::Only,
        _ => Place::Middle,
    }
}

/// Near one that stands, or anywhere; its identity does not stand.
fn new_node(random: &mut Random, words: &[u32]) -> Row {
    loop {
        let [sort, number, variant] = node_key(random, words);
        let offices = part_of(random, all_marks(office_count(words)), 1);
        let row = [sort, number, variant, offices];
        if row_faults(Table::Nodes, row, words).is_empty() {
            return row;
        }
    }
}

fn node_key(random: &mut Random, words: &[u32]) -> Key {
    let rows = node_rows(words);
    if rows.is_empty() || random.one_in(4) {
        let sort = random.between(PERSON as usize, FOLIO as usize) as u32;
        let variant = if sort == DEED { random.odd_word() } else { 0 };
        return [sort, random.odd_word().max(1), variant];
    }
    let row = random_row(random, &rows);
    near(random, key_of(row), Table::Nodes)
}

/// The first, the last or any.
fn random_row(random: &mut Random, rows: &[Row]) -> Row {
    match random.below(4) {
        0 => rows[0],
        1 => rows[rows.len() - 1],
        _ => random.pick(rows),
    }
}

/// The same but for one word, or with two of them exchanged.
fn near(random: &mut Random, [first, second, third]: Key, table: Table) -> Key {
    let next = |word: u32, last: u32| word % last + 1;
    let last = if table == Table::Nodes { FOLIO } else { APPLIES };
    match random.below(8) {
        0 => [first, second.wrapping_add(1), third],
        1 => [first, second.wrapping_sub(1), third],
        2 => [first, second, third.wrapping_add(1)],
        3 => [first, second, third.wrapping_sub(1)],
        4 => [next(first, last), second, if table == Table::Nodes { 0 } else { third }],
        5 => [first, second ^ 1 << random.below(32), third],
        6 => [first, random.odd_word(), third],
        _ => [first, third, second],
    }
}

/// Every edge that could be and is not, with the offices that both its ends have.
fn absent(words: &[u32]) -> Vec<Row> {
    let nodes: Vec<(u32, Row)> = (0..).zip(node_rows(words)).collect();
    let of = |sort: u32| nodes.iter().filter(move |(_, row)| row[0] == sort);
    let mut all = Vec::new();
    for kind in MEMBER..=APPLIES {
        let (from_sort, to_sort) = end_types(kind).unwrap_or_default();
        for (from, one) in of(from_sort) {
            for (to, other) in of(to_sort).filter(|(to, _)| to != from) {
                let common = one[3] & other[3];
                all.extend((common != 0).then_some([kind, *from, *to, common]));
            }
        }
    }
    let standing: Vec<Key> = Table::Edges.rows(words).into_iter().map(key_of).collect();
    all.retain(|row| standing.binary_search(&key_of(*row)).is_err());
    all
}

/// One that names what stands; its offices may be others.
pub fn there(random: &mut Random, table: Table, words: &[u32]) -> Option<Row> {
    faulty(random, table, words, &[twice(table)])
}

/// A row with these faults of its own, and no others, if one is found.
pub fn faulty(random: &mut Random, table: Table, words: &[u32], wanted: &[u32]) -> Option<Row> {
    (0..TRIES).find_map(|_| {
        let row = match table {
            Table::Nodes => faulty_node(random, words, wanted),
            Table::Edges => faulty_edge(random, words, wanted),
        };
        (row_faults(table, row, words) == wanted).then_some(row)
    })
}

fn faulty_node(random: &mut Random, words: &[u32], wanted: &[u32]) -> Row {
    let (rows, has) = (node_rows(words), |number: u32| wanted.contains(&number));
    let mut row = match has(9) && !rows.is_empty() {
        true => random_row(random, &rows),
        false => new_node(random, words),
    };
    if has(6) {
        row[0] = random.pick(&[0, 5, 6, row[0] + 256, row[0] | 1 << 31, u32::MAX]);
        row[2] = 0;
    }
    if has(7) && (row[0] == DEED || random.one_in(2)) {
        row[1] = 0;
    } else if has(7) {
        row[2] = random.odd_word_from(1);
    }
    let all = all_marks(office_count(words));
    row[3] = match has(8) {
        true => bad_mark(random, office_count(words)),
        false => part_of(random, all, 1),
    };
    row
}

fn faulty_edge(random: &mut Random, words: &[u32], wanted: &[u32]) -> Row {
    let (rows, has) = (Table::Edges.rows(words), |number: u32| wanted.contains(&number));
    let nodes = node_rows(words);
    let mut row = match has(16) && !rows.is_empty() {
        true => random_row(random, &rows),
        false if has(13) || has(14) || nodes.is_empty() => any_edge(random, &nodes, has(14)),
        false => right(random, Table::Edges, words, None).unwrap_or_default(),
    };
    if has(12) {
        let (far, which) = (past_the_end(random, nodes.len()), random.between(1, 3));
        for end in [1, 2] {
            if has(14) || which & end != 0 {
                row[end] = far;
            }
        }
    }
    if has(11) {
        row[0] = random.pick(&[0, 6, 7, row[0] + 256, row[0] | 1 << 31, u32::MAX]);
    }
    row[3] = edge_marks(random, words, &row, has(15));
    row
}

/// A kind and two rows, whether they fit or not; or a containment of a row in itself.
fn any_edge(random: &mut Random, nodes: &[Row], in_itself: bool) -> Row {
    let kind = random.between(MEMBER as usize, APPLIES as usize) as u32;
    let [one, other] = [0; 2].map(|_| random.below(nodes.len().max(1)) as u32);
    match in_itself {
        true => [CONTAINED, one, one, 0],
        false => [kind, one, other, 0],
    }
}

/// Some of these become a row again where its place is reckoned in 32 bits.
fn past_the_end(random: &mut Random, nodes: usize) -> u32 {
    let row = random.below(nodes.max(1)) as u32;
    match random.below(6) {
        0 => nodes as u32,
        1 => u32::MAX,
        2 => row + ((random.between(1, 3) as u32) << 30),
        3 => row | 1 << 16,
        _ => random.odd_word_from(nodes as u32),
    }
}

/// Within both ends' offices, as far as there are such; or a bad mark, one that the
/// count allows and an end lacks if there is one.
fn edge_marks(random: &mut Random, words: &[u32], row: &Row, bad: bool) -> u32 {
    let (nodes, all) = (node_rows(words), all_marks(office_count(words)));
    let offices = |end: u32| nodes.get(end as usize).map_or(all, |row| row[3]);
    let common = offices(row[1]) & offices(row[2]);
    let lacking = all & !common;
    match bad {
        true if lacking != 0 && !random.one_in(3) => {
            part_of(random, lacking, 0) | random.pick(&[0, common])
        }
        true => bad_mark(random, office_count(words)),
        false if common == 0 => all,
        false => part_of(random, common, 1),
    }
}

/// One that stands.
pub fn standing_key(random: &mut Random, table: Table, words: &[u32]) -> Option<Key> {
    let rows = table.rows(words);
    (!rows.is_empty()).then(|| key_of(random_row(random, &rows)))
}

/// One near a row that stands, and any other where there is none.
pub fn near_key(random: &mut Random, table: Table, words: &[u32]) -> Key {
    match standing_key(random, table, words) {
        Some(key) => near(random, key, table),
        None => any_key(random, table, node_count(words)),
    }
}

/// Any three words; of an edge now and then ends that are among so many nodes.
pub fn any_key(random: &mut Random, table: Table, nodes: usize) -> Key {
    let first = random.pick(&[0, 1, 2, 3, 4, 5, 6, 257, 1 << 31, u32::MAX]);
    let mut word = || match random.below(5) {
        0 => 0,
        1 => u32::MAX,
        2 => random.odd_word(),
        _ if table == Table::Edges => random.below(nodes + 2) as u32,
        _ => random.word(),
    };
    [first, word(), word()]
}
