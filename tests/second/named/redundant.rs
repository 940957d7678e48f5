//! Named cases of question 10: which edges are redundant, kind by kind, in lines
//! and in rings. Rows are counted from 0. What a ban row makes of member edges is in
//! `memberships`.

use crate::model::limits::MOST_NODES;
use crate::model::sheet::*;
use crate::named::book::Book;

pub fn add_all(book: &mut Book) {
    members(book);
    containments(book);
    rings(book);
    rights(book);
    variants(book);
    offices(book);
    applies_never(book);
    longest(book);
}

/// Person 1, categories 1 to 4 (rows 1 to 4), deed 1/1, 1/2 (rows 5, 6), folio 1
/// (row 7). The edges are put in their order first.
fn sheet(edges: &[Row]) -> Sheet {
    let mut nodes = vec![[1, 1, 0, 1]];
    nodes.extend((1..=4).map(|number| [2, number, 0, 1]));
    nodes.extend([[3, 1, 1, 1], [3, 1, 2, 1], [4, 1, 0, 1]]);
    let mut edges = edges.to_vec();
    edges.sort();
    Sheet { office_count: 1, nodes, edges }
}

fn listed(book: &mut Book, name: &str, edges: &[Row], rows: &[u32]) {
    book.found(name, &sheet(edges), &[10, 1], rows);
}

fn member(category: u32) -> Row {
    [1, 0, category, 1]
}

fn step(low: u32, high: u32) -> Row {
    [2, low, high, 1]
}

fn members(book: &mut Book) {
    let (one, two, three) = (member(1), member(2), member(3));
    listed(book, "a member of the contained category too", &[one, two, step(1, 2)], &[1]);
    listed(book, "a member of the containing category too", &[one, two, step(2, 1)], &[0]);
    listed(book, "a member over two steps", &[one, three, step(1, 2), step(2, 3)], &[1]);
    listed(book, "members of unlike categories", &[one, two, step(1, 3), step(2, 3)], &[]);
    listed(book, "a member all along a line", &[one, two, three, step(1, 2), step(2, 3)], &[1, 2]);
    listed(book, "a single member of a ring", &[one, step(1, 2), step(2, 1)], &[]);
    listed(book, "two members of one ring", &[one, two, step(1, 2), step(2, 1)], &[0, 1]);
    let ring = [one, two, three, step(1, 2), step(2, 3), step(3, 1)];
    listed(book, "three members of one ring", &ring, &[0, 1, 2]);
    // Two persons: what the other one is a member of does not count.
    let nodes = [[1, 1, 0, 1], [1, 2, 0, 1], [2, 1, 0, 1], [2, 2, 0, 1]];
    let apart = Sheet::new(1, &nodes, &[[1, 0, 2, 1], [1, 1, 3, 1], [2, 2, 3, 1]]);
    book.found("another person in the contained category", &apart, &[10, 1], &[]);
}

fn containments(book: &mut Book) {
    let (up, on, over) = (step(1, 2), step(2, 3), step(1, 3));
    listed(book, "a line of two steps", &[up, on], &[]);
    listed(book, "a step beside two", &[up, on, over], &[1]);
    listed(book, "a step beside three", &[up, on, step(3, 4), step(1, 4)], &[1]);
    listed(book, "two ways of two steps", &[up, step(1, 3), step(2, 4), step(3, 4)], &[]);
    let beside_two_ways = [up, step(1, 3), step(1, 4), step(2, 4), step(3, 4)];
    listed(book, "a step beside two ways", &beside_two_ways, &[2]);
    listed(book, "steps out of one category", &[up, over, step(1, 4)], &[]);
    listed(book, "steps into one category", &[step(1, 4), step(2, 4), step(3, 4)], &[]);
    let all = [up, over, step(1, 4), on, step(2, 4), step(3, 4)];
    listed(book, "every step upwards of four", &all, &[1, 2, 4]);
}

/// A ring is no path beside its own steps: it leads back through the start.
fn rings(book: &mut Book) {
    listed(book, "two equal categories", &[step(1, 2), step(2, 1)], &[]);
    listed(book, "a ring of three", &[step(1, 2), step(2, 3), step(3, 1)], &[]);
    let ring = [step(1, 2), step(2, 3), step(3, 4), step(4, 1)];
    listed(book, "a ring of four", &ring, &[]);
    let tailed = [step(1, 2), step(1, 3), step(2, 1)];
    listed(book, "a step out of two equal categories", &tailed, &[]);
    let led_in = [step(1, 2), step(2, 1), step(3, 1)];
    listed(book, "a step into two equal categories", &led_in, &[]);
    let twice_out = [step(1, 2), step(1, 3), step(2, 1), step(2, 3)];
    listed(book, "out of both equal categories", &twice_out, &[1, 3]);
    let twice_in = [step(1, 2), step(2, 1), step(3, 1), step(3, 2)];
    listed(book, "into both equal categories", &twice_in, &[2, 3]);
    let chord = [step(1, 2), step(1, 3), step(2, 3), step(3, 1)];
    listed(book, "a ring of three with a chord", &chord, &[1]);
    let both = [step(1, 2), step(1, 3), step(2, 1), step(2, 3), step(3, 1), step(3, 2)];
    listed(book, "three categories, all equal", &both, &[0, 1, 2, 3, 4, 5]);
    let out_of_ring = [step(1, 2), step(1, 4), step(2, 3), step(3, 1)];
    listed(book, "a step out of a ring of three", &out_of_ring, &[]);
}

fn rights(book: &mut Book) {
    for (kind, name, rising, falling) in [(3, "grant", 0, 1), (4, "ban", 1, 0)] {
        let right = |category: u32| [kind, category, 5, 1];
        let two = [right(1), right(2)];
        let with = |steps: &[Row]| [&two[..], steps].concat();
        let say = |about: &str| format!("a {name} {about}");
        // Steps of kind 2 stand before the rights.
        listed(book, &say("of the containing category too"), &with(&[step(1, 2)]), &[1 + rising]);
        listed(book, &say("of the contained category too"), &with(&[step(2, 1)]), &[1 + falling]);
        let over = with(&[step(1, 3), step(3, 2)]);
        listed(book, &say("over two steps"), &over, &[2 + rising]);
        listed(book, &say("of unlike categories"), &with(&[step(1, 3), step(2, 3)]), &[]);
        listed(book, &say("twice in a ring"), &with(&[step(1, 2), step(2, 1)]), &[2, 3]);
        let single = [right(1), step(1, 2), step(2, 1)];
        listed(book, &say("once in a ring"), &single, &[]);
        let other = [right(1), [7 - kind, 2, 5, 1], step(1, 2), step(2, 1)];
        listed(book, &say("and its opposite in a ring"), &other, &[]);
    }
}

fn variants(book: &mut Book) {
    for kind in [3, 4] {
        let edges = [[kind, 1, 5, 1], [kind, 2, 6, 1], step(1, 2), step(2, 1)];
        listed(book, &format!("kind {kind} on two variants"), &edges, &[]);
        let both = [edges[0], [kind, 2, 5, 1], edges[1], edges[2], edges[3]];
        listed(book, &format!("kind {kind} on one variant of two"), &both, &[2, 3]);
    }
}

/// Only rows, and paths, of the office asked.
fn offices(book: &mut Book) {
    let edges = [[1, 0, 1, 3], [1, 0, 2, 3], [2, 1, 2, 1], [2, 1, 3, 3], [2, 2, 3, 3]];
    let mut split = sheet(&edges);
    split.office_count = 2;
    split.nodes.iter_mut().for_each(|row| row[3] = 3);
    book.found("the step at office 1", &split, &[10, 1], &[1, 3]);
    book.found("no step at office 2", &split, &[10, 2], &[]);
    split.edges[0][3] = 2;
    book.found("the member at office 2 alone, asked at 1", &split, &[10, 1], &[3]);
    split.edges[0][3] = 3;
    split.edges[3][3] = 2;
    book.found("the row of office 2, asked at 1", &split, &[10, 1], &[1]);
}

fn applies_never(book: &mut Book) {
    let edges = [[3, 1, 5, 1], [3, 1, 6, 1], [5, 5, 7, 1], [5, 6, 7, 1]];
    listed(book, "two variants on one folio", &edges, &[]);
}

/// As many categories as there may be nodes in a line, and a step beside all of the others.
fn longest(book: &mut Book) {
    let last = MOST_NODES as u32 - 1;
    let nodes: Vec<Row> = (1..=last + 1).map(|number| [2, number, 0, 1]).collect();
    let mut edges: Vec<Row> = (0..last).map(|low| [2, low, low + 1, 1]).collect();
    edges.insert(1, [2, 0, last, 1]);
    let line = Sheet { office_count: 1, nodes: nodes.clone(), edges: edges.clone() };
    book.found("a step beside the longest line", &line, &[10, 1], &[1]);
    edges[1] = [2, last, 0, 1];
    edges.sort();
    let ring = Sheet { office_count: 1, nodes, edges };
    book.found("the longest ring", &ring, &[10, 1], &[]);
}
