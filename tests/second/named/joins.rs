//! Named cases of joining. Each says literally what the document says of it.

use crate::model::limits::{MOST_EDGES, MOST_NODES};
use crate::model::sheet::*;
use crate::named::book::{Asked, Book};
use crate::named::sister::*;
use crate::named::{checks, join_refusals, takings};

pub fn all() -> Vec<Asked> {
    let mut book = Book::default();
    sister_ships(&mut book);
    with_itself(&mut book);
    with_nothing(&mut book);
    apart(&mut book);
    equal_nodes(&mut book);
    identities(&mut book);
    rows_and_identities(&mut book);
    kinds(&mut book);
    full(&mut book);
    join_refusals::add_all(&mut book);
    takings::add_all(&mut book);
    book.asked
}

/// The same rows, marked otherwise.
pub fn marked(sheet: &Sheet, office_count: u32, offices: u32) -> Sheet {
    let mark = |rows: &[Row]| -> Vec<Row> {
        rows.iter().map(|&[a, b, c, _]| [a, b, c, offices]).collect()
    };
    Sheet::new(office_count, &mark(&sheet.nodes), &mark(&sheet.edges))
}

pub fn nothing() -> Sheet {
    Sheet::new(1, &[], &[])
}

fn sister_ships(book: &mut Book) {
    let (a, b, c) = (sheet_a(), sheet_b(), sheet_c());
    book.joined("case 11, A and B", [&a, &b], &joint_of_a_and_b(), [4, 2]);
    let mut turned = joint_of_a_and_b();
    for row in turned.nodes.iter_mut().chain(&mut turned.edges) {
        row[3] = [0, 2, 1, 3][row[3] as usize];
    }
    book.joined("B and A", [&b, &a], &turned, [4, 2]);
    let mut wider = marked(&c, 2, 3);
    wider.edges[4][3] = 2;
    book.joined("A and C", [&a, &c], &wider, [8, 7]);
    wider.edges[4][3] = 1;
    book.joined("C and A", [&c, &a], &wider, [8, 7]);
}

fn with_itself(book: &mut Book) {
    for (name, sheet) in [("A", sheet_a()), ("B", sheet_b()), ("C", sheet_c())] {
        let shared = [sheet.nodes.len() as u32, sheet.edges.len() as u32];
        let name = format!("{name} with itself");
        book.joined(&name, [&sheet, &sheet], &marked(&sheet, 2, 3), shared);
    }
    let ring = Sheet::new(1, &[[2, 1, 0, 1], [2, 2, 0, 1]], &[[2, 0, 1, 1], [2, 1, 0, 1]]);
    book.joined("a ring with itself", [&ring, &ring], &marked(&ring, 2, 3), [2, 2]);
}

fn with_nothing(book: &mut Book) {
    let (a, nothing) = (sheet_a(), nothing());
    book.joined("A and nothing", [&a, &nothing], &marked(&a, 2, 1), [0, 0]);
    book.joined("nothing and A", [&nothing, &a], &marked(&a, 2, 2), [0, 0]);
    book.joined("nothing twice", [&nothing, &nothing], &Sheet::new(2, &[], &[]), [0, 0]);
    let lone = Sheet::new(1, &[[4, 1, 0, 1]], &[]);
    book.joined("a folio and nothing", [&lone, &nothing], &marked(&lone, 2, 1), [0, 0]);
    book.joined("nothing and a folio", [&nothing, &lone], &marked(&lone, 2, 2), [0, 0]);
    book.joined("a folio twice", [&lone, &lone], &marked(&lone, 2, 3), [1, 0]);
}

/// Nothing is shared, and the rows of the one lie between those of the other.
fn apart(book: &mut Book) {
    let odd = Sheet::new(
        1,
        &[[1, 1, 0, 1], [2, 1, 0, 1], [3, 1, 0, 1], [4, 1, 0, 1]],
        &[[1, 0, 1, 1], [3, 1, 2, 1], [5, 2, 3, 1]],
    );
    let even = Sheet::new(
        1,
        &[[1, 2, 0, 1], [2, 2, 0, 1], [3, 2, 0, 1], [4, 2, 0, 1]],
        &[[1, 0, 1, 1], [3, 1, 2, 1], [5, 2, 3, 1]],
    );
    let joint = |odd: u32, even: u32| {
        let nodes = (1..=4).flat_map(|sort| [[sort, 1, 0, odd], [sort, 2, 0, even]]);
        let edges = [
            [1, 0, 2, odd],
            [1, 1, 3, even],
            [3, 2, 4, odd],
            [3, 3, 5, even],
            [5, 4, 6, odd],
            [5, 5, 7, even],
        ];
        Sheet::new(2, &nodes.collect::<Vec<Row>>(), &edges)
    };
    book.joined("odd and even ones", [&odd, &even], &joint(1, 2), [0, 0]);
    book.joined("even and odd ones", [&even, &odd], &joint(2, 1), [0, 0]);
    let (persons, folios) = ([[1, 7, 0, 1], [1, 8, 0, 1]], [[4, 7, 0, 1], [4, 8, 0, 1]]);
    let (low, high) = (Sheet::new(1, &persons, &[]), Sheet::new(1, &folios, &[]));
    let both = |low: u32, high: u32| {
        let nodes = [[1, 7, 0, low], [1, 8, 0, low], [4, 7, 0, high], [4, 8, 0, high]];
        Sheet::new(2, &nodes, &[])
    };
    book.joined("persons and folios", [&low, &high], &both(1, 2), [0, 0]);
    book.joined("folios and persons", [&high, &low], &both(2, 1), [0, 0]);
}

/// Every node is shared, and an edge is marked by the sheets that have it and not
/// by its ends.
fn equal_nodes(book: &mut Book) {
    let nodes = [[1, 1, 0, 1], [2, 1, 0, 1], [2, 2, 0, 1], [3, 1, 0, 1]];
    let of = |edges: &[Row]| Sheet::new(1, &nodes, edges);
    let joint = |edges: &[Row]| {
        let nodes = nodes.map(|[a, b, c, _]| [a, b, c, 3]);
        Sheet::new(2, &nodes, edges)
    };
    let (member, other) = ([1, 0, 1, 1], [1, 0, 2, 1]);
    let (grant, ban) = ([3, 1, 3, 1], [4, 1, 3, 1]);
    let apart = joint(&[[1, 0, 1, 1], [1, 0, 2, 2], [3, 1, 3, 1], [4, 1, 3, 2]]);
    book.joined("no edge in both", [&of(&[member, grant]), &of(&[other, ban])], &apart, [4, 0]);
    let one = joint(&[[1, 0, 1, 3], [3, 1, 3, 1]]);
    book.joined("an edge of the first", [&of(&[member, grant]), &of(&[member])], &one, [4, 1]);
    let two = joint(&[[1, 0, 1, 3], [3, 1, 3, 2]]);
    book.joined("an edge of the second", [&of(&[member]), &of(&[member, grant])], &two, [4, 1]);
    let first = joint(&[[1, 0, 1, 1]]);
    book.joined("edges in the first alone", [&of(&[member]), &of(&[])], &first, [4, 0]);
    let second = joint(&[[1, 0, 1, 2]]);
    book.joined("edges in the second alone", [&of(&[]), &of(&[member])], &second, [4, 0]);
}

/// Identity is type, number and variant.
fn identities(book: &mut Book) {
    let m = u32::MAX;
    let one = Sheet::new(1, &[[3, 31, 0, 1], [3, 31, 2, 1], [3, 32, 0, 1]], &[]);
    let other = Sheet::new(1, &[[3, 31, 1, 1], [3, 31, 2, 1], [3, 31, m, 1]], &[]);
    let nodes = [[3, 31, 0, 1], [3, 31, 1, 2], [3, 31, 2, 3], [3, 31, m, 2], [3, 32, 0, 1]];
    book.joined("deeds by variant", [&one, &other], &Sheet::new(2, &nodes, &[]), [1, 0]);
    let one = Sheet::new(1, &[[1, 5, 0, 1], [3, 5, 0, 1]], &[]);
    let other = Sheet::new(1, &[[2, 5, 0, 1], [3, 5, 0, 1], [4, 5, 0, 1]], &[]);
    let nodes = [[1, 5, 0, 1], [2, 5, 0, 2], [3, 5, 0, 3], [4, 5, 0, 2]];
    book.joined("one number, four types", [&one, &other], &Sheet::new(2, &nodes, &[]), [1, 0]);
    let one = Sheet::new(1, &[[4, 0x7FFF_FFFF, 0, 1], [4, m, 0, 1]], &[]);
    let other = Sheet::new(1, &[[4, 0x8000_0000, 0, 1], [4, m, 0, 1]], &[]);
    let nodes = [[4, 0x7FFF_FFFF, 0, 1], [4, 0x8000_0000, 0, 2], [4, m, 0, 3]];
    book.joined("about the sign bit", [&one, &other], &Sheet::new(2, &nodes, &[]), [1, 0]);
}

/// Equal edge rows that are different edges, and different ones that are equal.
fn rows_and_identities(book: &mut Book) {
    let pair = |person: u32| Sheet::new(1, &[[1, person, 0, 1], [2, 1, 0, 1]], &[[1, 0, 1, 1]]);
    let nodes = [[1, 1, 0, 1], [1, 2, 0, 2], [2, 1, 0, 3]];
    let joint = Sheet::new(2, &nodes, &[[1, 0, 2, 1], [1, 1, 2, 2]]);
    book.joined("equal rows, two edges", [&pair(1), &pair(2)], &joint, [1, 0]);
    let four = [[1, 2, 0, 1], [1, 3, 0, 1], [2, 1, 0, 1], [2, 2, 0, 1]];
    let wide = Sheet::new(1, &four, &[[1, 1, 3, 1]]);
    let narrow = Sheet::new(1, &[[1, 3, 0, 1], [2, 2, 0, 1]], &[[1, 0, 1, 1]]);
    let nodes = [[1, 2, 0, 1], [1, 3, 0, 3], [2, 1, 0, 1], [2, 2, 0, 3]];
    let joint = Sheet::new(2, &nodes, &[[1, 1, 3, 3]]);
    book.joined("other rows, one edge", [&wide, &narrow], &joint, [2, 1]);
    let nodes = [[1, 2, 0, 2], [1, 3, 0, 3], [2, 1, 0, 2], [2, 2, 0, 3]];
    let turned = Sheet::new(2, &nodes, &[[1, 1, 3, 3]]);
    book.joined("other rows, one edge, turned", [&narrow, &wide], &turned, [2, 1]);
}

/// A kind of its own, or a direction of its own, makes another edge.
fn kinds(book: &mut Book) {
    let nodes = [[2, 1, 0, 1], [2, 2, 0, 1], [3, 1, 0, 1], [4, 1, 0, 1]];
    let of = |edges: &[Row]| Sheet::new(1, &nodes, edges);
    let joint = |edges: &[Row]| {
        let nodes = nodes.map(|[a, b, c, _]| [a, b, c, 3]);
        Sheet::new(2, &nodes, edges)
    };
    let both = joint(&[[3, 0, 2, 1], [4, 0, 2, 2]]);
    book.joined("a grant and a ban", [&of(&[[3, 0, 2, 1]]), &of(&[[4, 0, 2, 1]])], &both, [4, 0]);
    let both = joint(&[[2, 0, 1, 2], [2, 1, 0, 1]]);
    let sheets = [&of(&[[2, 1, 0, 1]]), &of(&[[2, 0, 1, 1]])];
    book.joined("a containment each way", sheets, &both, [4, 0]);
    let all = [[2, 0, 1, 1], [2, 1, 0, 1], [3, 0, 2, 1], [4, 0, 2, 1], [5, 2, 3, 1]];
    for left_out in 0..all.len() {
        let mut some = all.to_vec();
        some.remove(left_out);
        let mut edges = all.map(|[a, b, c, _]| [a, b, c, 3]);
        edges[left_out][3] = 1;
        let name = format!("edge {left_out} of five in the first alone");
        book.joined(&name, [&of(&all), &of(&some)], &joint(&edges), [4, 4]);
    }
}

/// The longest there are.
fn full(book: &mut Book) {
    let full = checks::full();
    let shared = [MOST_NODES as u32, MOST_EDGES as u32];
    book.joined("a full sheet with itself", [&full, &full], &marked(&full, 2, 3), shared);
    book.joined("a full sheet and nothing", [&full, &nothing()], &marked(&full, 2, 1), [0, 0]);
    book.joined("nothing and a full sheet", [&nothing(), &full], &marked(&full, 2, 2), [0, 0]);
}
