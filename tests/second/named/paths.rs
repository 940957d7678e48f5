//! Named cases about paths: chains, rings, which of several paths is the
//! witness, and lists that are nearly one.

use crate::generate::lists::MOST_LIST;
use crate::generate::longest::MOST_CATEGORIES;
use crate::model::sheet::*;
use crate::named::book::Book;

pub fn add_all(book: &mut Book) {
    longest_chains(book);
    longest_rings(book);
    small_ring(book);
    dictionary_order(book);
    deed_variants(book);
    fewest_nodes_first(book);
    same_numbers(book);
    lists(book);
    list_of_sheet_ends(book);
}

const LAST: u32 = MOST_CATEGORIES;

/// Person 1, category 1 up to the last, deed 1, folio 1, each category contained in
/// the next. The person is in one, and the right is at another.
fn chain(member_of: u32, kind: u32, right_of: u32, more: &[Row]) -> Sheet {
    let mut nodes = vec![[1, 1, 0, 1]];
    nodes.extend((1..=LAST).map(|number| [2, number, 0, 1]));
    nodes.extend([[3, 1, 0, 1], [4, 1, 0, 1]]);
    // A category stands at the row of its number.
    let mut edges = vec![[1, 0, member_of, 1]];
    edges.extend((1..LAST).map(|low| [2, low, low + 1, 1]));
    edges.extend([[kind, right_of, LAST + 1, 1], [5, LAST + 1, LAST + 2, 1]]);
    edges.extend(more);
    edges.sort();
    Sheet { office_count: 1, nodes, edges }
}

fn through(categories: impl Iterator<Item = u32>) -> Vec<u32> {
    let mut path = vec![1, 0];
    path.extend(categories.flat_map(|category| [category, 0]));
    path.extend([1, 0, 1, 0]);
    path
}

/// Error 5: a walk limited to fewer steps than the longest legal chain.
fn longest_chains(book: &mut Book) {
    let ask = [1, 1, 1, 1];
    let up = chain(1, 3, LAST, &[]);
    book.answer("the longest grant", &up, ask, 1);
    book.witness("the longest grant", &up, [1, 0, 1, 1, 1], &through(1..=LAST));
    book.joint("the longest grant", &up, [2, 1, 1, 1], (1, 1));
    let down = chain(LAST, 4, 1, &[]);
    book.answer("the longest ban", &down, ask, 2);
    book.witness("the longest ban", &down, [1, 9, 1, 1, 1], &through((1..=LAST).rev()));
    book.joint("the longest ban", &down, [1, 1, 1, 1], (2, 1));
    book.answer("the longest chain has no ban upwards", &chain(1, 4, LAST, &[]), ask, 0);
    book.answer("the longest chain has no grant downwards", &chain(LAST, 3, 1, &[]), ask, 0);
    let skipped: Vec<u32> = through((1..=LAST).filter(|&number| number != 255));
    book.listed("the longest grant but one category", &up, [1, 0, 1, 1, 1], &skipped, false);
}

/// Error 5: a walk that circles in a ring.
fn longest_rings(book: &mut Book) {
    let (ask, closing) = ([1, 1, 1, 1], [[2, LAST, 1, 1]]);
    let ring = chain(1, 3, LAST, &closing);
    book.witness("the longest ring's grant", &ring, [1, 0, 1, 1, 1], &through(1..=LAST));
    book.no_path("the longest ring has no ban", &ring, [1, 1, 1, 1, 1]);
    let twice = through((1..=LAST).chain(1..=LAST));
    book.listed("twice round the longest ring", &ring, [1, 0, 1, 1, 1], &twice, false);
    let banned = chain(1, 4, 2, &closing);
    book.answer("a ban the other way round the longest ring", &banned, ask, 2);
    let path = through([1].into_iter().chain((2..=LAST).rev()));
    book.witness("a ban round the longest ring", &banned, [1, 1, 1, 1, 1], &path);
}

/// Categories 1, 2, 3 in a ring, and 4 outside of it.
fn ring_of_three(rights: &[Row]) -> Sheet {
    let nodes: [Row; 7] = [
        [1, 1, 0, 1],
        [2, 1, 0, 1],
        [2, 2, 0, 1],
        [2, 3, 0, 1],
        [2, 4, 0, 1],
        [3, 1, 0, 1],
        [4, 1, 0, 1],
    ];
    let mut edges = vec![[1, 0, 1, 1], [2, 1, 2, 1], [2, 2, 3, 1], [2, 3, 1, 1]];
    edges.extend(rights);
    edges.push([5, 5, 6, 1]);
    Sheet::new(1, &nodes, &edges)
}

fn small_ring(book: &mut Book) {
    let (grant, ban) = ([1, 0, 1, 1, 1], [1, 1, 1, 1, 1]);
    let outside = ring_of_three(&[[3, 4, 5, 1], [4, 4, 5, 1]]);
    book.answer("a ring that leads nowhere", &outside, [1, 1, 1, 1], 0);
    book.no_path("a ring's grant that leads nowhere", &outside, grant);
    book.no_path("a ring's ban that leads nowhere", &outside, ban);
    let inside = ring_of_three(&[[3, 3, 5, 1], [4, 3, 5, 1]]);
    book.answer("a ring with a grant and a ban", &inside, [1, 1, 1, 1], 3);
    let around = [1, 0, 1, 0, 2, 0, 3, 0, 1, 0, 1, 0];
    book.witness("round a ring", &inside, grant, &around);
    book.witness("a ring backwards", &inside, ban, &[1, 0, 1, 0, 3, 0, 1, 0, 1, 0]);
    book.listed("a ring's grant as a ban", &inside, ban, &around, false);
    let again = through([1, 2, 3, 1, 2, 3].into_iter());
    book.listed("a ring gone round twice", &inside, grant, &again, false);
    let back = ring_of_three(&[[3, 1, 5, 1]]);
    book.witness("a ring entered where it is left", &back, grant, &[1, 0, 1, 0, 1, 0, 1, 0]);
    let list = through([1, 2, 3, 1].into_iter());
    book.listed("a ring back to its first category", &back, grant, &list, false);
}

/// Person 1 in the categories 2 and 3; 2 leads to 9, 3 leads to 4, and both of
/// these to 5, which has the right.
fn crossing(side: u32) -> Sheet {
    let nodes: [Row; 8] = [
        [1, 1, 0, 1],
        [2, 2, 0, 1],
        [2, 3, 0, 1],
        [2, 4, 0, 1],
        [2, 5, 0, 1],
        [2, 9, 0, 1],
        [3, 1, 0, 1],
        [4, 1, 0, 1],
    ];
    let steps = [(1, 5), (2, 3), (3, 4), (5, 4)];
    let mut edges = vec![[1, 0, 1, 1], [1, 0, 2, 1], [side, 4, 6, 1], [5, 6, 7, 1]];
    edges.extend(steps.map(|(from, to)| match side {
        GRANT => [2, from, to, 1],
        _ => [2, to, from, 1],
    }));
    edges.sort();
    Sheet { office_count: 1, nodes: nodes.to_vec(), edges }
}

fn dictionary_order(book: &mut Book) {
    let path = [1, 0, 2, 0, 9, 0, 5, 0, 1, 0, 1, 0];
    let other = [1, 0, 3, 0, 4, 0, 5, 0, 1, 0, 1, 0];
    for (kind, side) in [(0, GRANT), (u32::MAX, BAN)] {
        let sheet = crossing(side);
        let numbers = [1, kind, 1, 1, 1];
        let name = format!("the first category that differs decides, kind {kind}");
        book.witness(&name, &sheet, numbers, &path);
        book.listed(&format!("the other one, kind {kind}"), &sheet, numbers, &other, true);
    }
}

/// Person 1 in category 1, deed 5 in four variants on folio 1; rights on the
/// variants named.
fn four_variants(rights: &[u32], applied: &[u32]) -> Sheet {
    let variants = [0, 1, 0x8000_0000, u32::MAX];
    let mut nodes = vec![[1, 1, 0, 1], [2, 1, 0, 1]];
    nodes.extend(variants.map(|variant| [3, 5, variant, 1]));
    nodes.push([4, 1, 0, 1]);
    let row = |variant: u32| 2 + variants.iter().position(|&one| one == variant).unwrap() as u32;
    let mut edges = vec![[1, 0, 1, 1]];
    edges.extend(rights.iter().map(|&variant| [3, 1, row(variant), 1]));
    edges.extend(applied.iter().map(|&variant| [5, row(variant), 6, 1]));
    Sheet { office_count: 1, nodes, edges }
}

fn deed_variants(book: &mut Book) {
    let (high, most) = (0x8000_0000, u32::MAX);
    let numbers = [1, 0, 1, 5, 1];
    let path = |variant| [1, 0, 1, 0, 5, variant, 1, 0];
    let all = four_variants(&[0, 1, high, most], &[0, 1, high, most]);
    book.witness("variant 0 before the others", &all, numbers, &path(0));
    for variant in [1, high, most] {
        let name = format!("variant {variant} serves as well");
        book.listed(&name, &all, numbers, &path(variant), true);
    }
    book.listed("a variant that is not there", &all, numbers, &path(2), false);
    let some = four_variants(&[0, high, most], &[1, high, most]);
    book.witness("the least variant granted that applies", &some, numbers, &path(high));
    let last = four_variants(&[0, 1, most], &[high, most]);
    book.witness("the last variant alone", &last, numbers, &path(most));
    let none = four_variants(&[0, high], &[1, most]);
    book.no_path("no variant both granted and applied", &none, numbers);
    book.answer("no variant both granted and applied", &none, [1, 1, 5, 1], 0);
}

/// Category 1 leads to 2; the right on variant 1 is at 2, that on variant 9 at
/// 1 itself, or at category 7, where the person is as well.
fn fewest_nodes_first(book: &mut Book) {
    let nodes: [Row; 7] = [
        [1, 1, 0, 1],
        [2, 1, 0, 1],
        [2, 2, 0, 1],
        [2, 7, 0, 1],
        [3, 1, 1, 1],
        [3, 1, 9, 1],
        [4, 1, 0, 1],
    ];
    let edges = |near: u32| {
        [
            [1, 0, 1, 1],
            [1, 0, 3, 1],
            [2, 1, 2, 1],
            [3, near, 5, 1],
            [3, 2, 4, 1],
            [5, 4, 6, 1],
            [5, 5, 6, 1],
        ]
    };
    let sorted = |near: u32| {
        let mut edges = edges(near);
        edges.sort();
        Sheet::new(1, &nodes, &edges)
    };
    let numbers = [1, 0, 1, 1, 1];
    let long = [1, 0, 1, 0, 2, 0, 1, 1, 1, 0];
    let own = sorted(1);
    book.witness("fewer nodes before the variant", &own, numbers, &[1, 0, 1, 0, 1, 9, 1, 0]);
    book.listed("the longer path", &own, numbers, &long, true);
    let other = sorted(3);
    book.witness("fewer nodes before the number", &other, numbers, &[1, 0, 7, 0, 1, 9, 1, 0]);
    book.listed("the longer path of lower numbers", &other, numbers, &long, true);
}

fn same_numbers(book: &mut Book) {
    for number in [1, 7, 0x8000_0000, u32::MAX] {
        let nodes =
            [[1, number, 0, 1], [2, number, 0, 1], [3, number, number, 1], [4, number, 0, 1]];
        let edges = [[1, 0, 1, 1], [3, 1, 2, 1], [4, 1, 2, 1], [5, 2, 3, 1]];
        let sheet = Sheet::new(1, &nodes, &edges);
        let path = [number, 0, number, 0, number, number, number, 0];
        let name = format!("{number} as person, category, deed and folio");
        book.answer(&name, &sheet, [1, number, number, number], 3);
        book.witness(&format!("{name}, granted"), &sheet, [1, 0, number, number, number], &path);
        book.witness(&format!("{name}, banned"), &sheet, [1, 1, number, number, number], &path);
    }
}

fn lists(book: &mut Book) {
    let sheet = ring_of_three(&[[3, 3, 5, 1]]);
    let numbers = [1, 0, 1, 1, 1];
    let path = [1, 0, 1, 0, 2, 0, 3, 0, 1, 0, 1, 0];
    for length in 0..path.len() {
        let name = format!("the first {length} words of a path");
        book.listed(&name, &sheet, numbers, &path[..length], false);
        if length > 0 {
            let name = format!("a path without its first {length} words");
            book.listed(&name, &sheet, numbers, &path[length..], false);
        }
    }
    for at in 0..path.len() {
        for word in [path[at] + 4, path[at].wrapping_sub(1), path[at] ^ 0x8000_0000] {
            let mut list = path;
            list[at] = word;
            let name = format!("word {at} of a path changed to {word}");
            book.listed(&name, &sheet, numbers, &list, false);
        }
    }
    for more in [&[0][..], &[0, 0], &[1, 0]] {
        let list = [&path[..], more].concat();
        book.listed(&format!("a path and {more:?}"), &sheet, numbers, &list, false);
    }
    let none = [1, 0, 1, 0, 1, 0];
    book.listed("a path without a category", &sheet, numbers, &none, false);
    book.listed(&format!("{MOST_LIST} words of 0"), &sheet, numbers, &[0; MOST_LIST], false);
    book.listed(&format!("{MOST_LIST} words of 1"), &sheet, numbers, &[1; MOST_LIST], false);
}

/// A path, but not of what is asked: each of the three is looked at.
fn list_of_sheet_ends(book: &mut Book) {
    let nodes: [Row; 7] = [
        [1, 1, 0, 1],
        [1, 2, 0, 1],
        [2, 1, 0, 1],
        [3, 1, 0, 1],
        [3, 2, 0, 1],
        [4, 1, 0, 1],
        [4, 2, 0, 1],
    ];
    let edges: [Row; 8] = [
        [1, 0, 2, 1],
        [1, 1, 2, 1],
        [3, 2, 3, 1],
        [3, 2, 4, 1],
        [5, 3, 5, 1],
        [5, 3, 6, 1],
        [5, 4, 5, 1],
        [5, 4, 6, 1],
    ];
    let sheet = Sheet::new(1, &nodes, &edges);
    let path = [1, 0, 1, 0, 1, 0, 1, 0];
    book.listed("a path of what is asked", &sheet, [1, 0, 1, 1, 1], &path, true);
    book.listed("another person's path", &sheet, [1, 0, 2, 1, 1], &path, false);
    book.listed("another deed's path", &sheet, [1, 0, 1, 2, 1], &path, false);
    book.listed("another folio's path", &sheet, [1, 0, 1, 1, 2], &path, false);
    book.listed("an unknown person's path", &sheet, [1, 0, 9, 1, 1], &path, false);
    book.listed("an unknown deed's path", &sheet, [1, 0, 1, 9, 1], &path, false);
    book.listed("an unknown folio's path", &sheet, [1, 0, 1, 1, 9], &path, false);
    let strange = [9, 0, 1, 0, 1, 0, 1, 0];
    book.listed("an unknown person, listed too", &sheet, [1, 0, 9, 1, 1], &strange, false);
}
