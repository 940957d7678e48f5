//! Valid sheets of many shapes. Rows are sorted by a set and marks are drawn
//! from what both ends carry, so validity follows from how a sheet is made
//! and not from asking the judge.

use std::collections::BTreeSet;
use std::ops::Range;

use crate::generate::marks::part_of;
use crate::generate::random::Random;
use crate::model::limits::*;
use crate::model::marks::all_marks;
use crate::model::sheet::*;

/// kind, from row, to row
type Wish = (u32, usize, usize);

struct Crew {
    persons: usize,
    categories: usize,
    deeds: usize,
    folios: usize,
}

/// Mostly small ones: faults are met on few rows as well as on many, and the
/// run stays short.
pub fn any(random: &mut Random) -> Sheet {
    match random.below(200) {
        0 => full(random),
        1..=4 => shaped(random, 40, 400),
        5..=12 => empty(random),
        13..=30 => shaped(random, 2, 6),
        _ => shaped(random, 5, 26),
    }
}

/// Never large: for questions that look at every person, deed and folio.
pub fn small(random: &mut Random) -> Sheet {
    match random.below(12) {
        0 => empty(random),
        1..=3 => shaped(random, 2, 6),
        _ => shaped(random, 5, 26),
    }
}

/// Room for a first, a middle and a last row even where the first row that
/// counts is row 1, and a category to be contained in itself.
pub fn roomy(random: &mut Random) -> Sheet {
    loop {
        let sheet = any(random);
        let category = sheet.nodes.iter().any(|row| row[0] == CATEGORY);
        if sheet.nodes.len() >= 4 && sheet.edges.len() >= 4 && category {
            return sheet;
        }
    }
}

pub fn any_office_count(random: &mut Random) -> u32 {
    random.between(1, MOST_OFFICES as usize) as u32
}

fn empty(random: &mut Random) -> Sheet {
    Sheet::new(any_office_count(random), &[], &[])
}

/// Up to `most` nodes of each type.
fn shaped(random: &mut Random, most: usize, most_edges: usize) -> Sheet {
    let office_count = any_office_count(random);
    let crew = Crew {
        persons: random.below(most + 1),
        categories: random.below(2 * most + 1),
        deeds: random.below(most + 1),
        folios: random.below(most + 1),
    };
    let nodes = nodes(random, &crew, office_count);
    let mut wishes = match random.below(6) {
        0 => chain(random, &nodes),
        1 => ring(random, &nodes),
        2 => star(random, &nodes),
        3 => dense(random, &nodes),
        _ => loose(random, &nodes, most_edges),
    };
    random.shuffle(&mut wishes);
    wishes.truncate(most_edges);
    let edges = edges(random, &nodes, wishes);
    Sheet { office_count, nodes, edges }
}

/// As many nodes and edges as there may be; every node carries all offices, so
/// that no wish is lost for want of a common mark.
pub fn full(random: &mut Random) -> Sheet {
    let office_count = any_office_count(random);
    let categories =
        random.pick(&[MOST_NODES / 8, MOST_NODES / 4, MOST_NODES / 2, MOST_NODES - 12, MOST_NODES]);
    let persons = random.below(MOST_NODES - categories + 1);
    let deeds = random.below(MOST_NODES - categories - persons + 1);
    let folios = MOST_NODES - categories - persons - deeds;
    let mut nodes = nodes(random, &Crew { persons, categories, deeds, folios }, office_count);
    for row in &mut nodes {
        row[3] = all_marks(office_count);
    }
    let mut wishes = BTreeSet::new();
    while wishes.len() < MOST_EDGES {
        wishes.extend(legal(random, &nodes));
    }
    let edges = edges(random, &nodes, wishes.into_iter().collect());
    Sheet { office_count, nodes, edges }
}

fn nodes(random: &mut Random, crew: &Crew, office_count: u32) -> Vec<Row> {
    let sizes = [crew.persons, crew.categories, crew.deeds, crew.folios];
    let mut rows = Vec::new();
    for (sort, size) in (PERSON..=FOLIO).zip(sizes) {
        for (number, variant) in identities(random, sort, size) {
            let offices = part_of(random, all_marks(office_count), 2);
            rows.push([sort, number, variant, offices]);
        }
    }
    rows
}

fn identities(random: &mut Random, sort: u32, size: usize) -> BTreeSet<(u32, u32)> {
    let style = random.below(4);
    let spread = 2 * size + 2;
    let mut identities = BTreeSet::new();
    while identities.len() < size {
        let number = number(random, style, spread);
        let variant = if sort == DEED { random.odd_word() } else { 0 };
        identities.insert((number, variant));
    }
    identities
}

/// Crowded numbers make neighbours that differ in one place only.
fn number(random: &mut Random, style: usize, spread: usize) -> u32 {
    match style {
        0 => 1 + random.below(spread) as u32,
        1 => u32::MAX - random.below(spread) as u32,
        2 => random.odd_word().max(1),
        _ => random.word().max(1),
    }
}

fn edges(random: &mut Random, nodes: &[Row], wishes: Vec<Wish>) -> Vec<Row> {
    let wishes: BTreeSet<Wish> = wishes.into_iter().collect();
    let mut rows = Vec::new();
    for (kind, from, to) in wishes {
        let common = nodes[from][3] & nodes[to][3];
        if common != 0 {
            rows.push([kind, from as u32, to as u32, part_of(random, common, 0)]);
        }
    }
    rows
}

/// Node rows rise by type, so each type has one stretch of rows.
fn rows_of(nodes: &[Row], sort: u32) -> Range<usize> {
    let start = nodes.iter().filter(|row| row[0] < sort).count();
    let size = nodes.iter().filter(|row| row[0] == sort).count();
    start..start + size
}

fn legal(random: &mut Random, nodes: &[Row]) -> Option<Wish> {
    let kind = random.between(MEMBER as usize, APPLIES as usize) as u32;
    let (from_sort, to_sort) = end_types(kind)?;
    let from = one_of(random, rows_of(nodes, from_sort))?;
    let to = one_of(random, rows_of(nodes, to_sort))?;
    (from != to).then_some((kind, from, to))
}

fn one_of(random: &mut Random, rows: Range<usize>) -> Option<usize> {
    match rows.len() {
        0 => None,
        size => Some(rows.start + random.below(size)),
    }
}

fn loose(random: &mut Random, nodes: &[Row], most: usize) -> Vec<Wish> {
    let size = random.below(most + 1);
    (0..size).filter_map(|_| legal(random, nodes)).collect()
}

fn chain(random: &mut Random, nodes: &[Row]) -> Vec<Wish> {
    let mut line: Vec<usize> = rows_of(nodes, CATEGORY).collect();
    if random.one_in(2) {
        random.shuffle(&mut line);
    }
    let mut wishes: Vec<Wish> = line.windows(2).map(|pair| (CONTAINED, pair[0], pair[1])).collect();
    if let (Some(&low), Some(&high)) = (line.first(), line.last()) {
        wishes.extend(rows_of(nodes, PERSON).map(|person| (MEMBER, person, low)));
        wishes.extend(rows_of(nodes, DEED).map(|deed| (GRANT, high, deed)));
        wishes.extend(rows_of(nodes, DEED).map(|deed| (BAN, low, deed)));
    }
    wishes.extend(loose(random, nodes, 8));
    wishes
}

fn ring(random: &mut Random, nodes: &[Row]) -> Vec<Wish> {
    let mut wishes = chain(random, nodes);
    let categories = rows_of(nodes, CATEGORY);
    let next = |row| if row + 1 == categories.end { categories.start } else { row + 1 };
    let steps = categories.clone().map(|row| (CONTAINED, row, next(row)));
    wishes.extend(steps.filter(|step| step.1 != step.2));
    wishes
}

fn star(random: &mut Random, nodes: &[Row]) -> Vec<Wish> {
    let categories = rows_of(nodes, CATEGORY);
    let Some(hub) = one_of(random, categories.clone()) else {
        return Vec::new();
    };
    let inward = random.one_in(2);
    let spokes = categories.filter(|&row| row != hub);
    let mut wishes: Vec<Wish> = spokes
        .map(|row| if inward { (CONTAINED, row, hub) } else { (CONTAINED, hub, row) })
        .collect();
    wishes.extend(rows_of(nodes, PERSON).map(|person| (MEMBER, person, hub)));
    wishes.extend(rows_of(nodes, DEED).map(|deed| (GRANT, hub, deed)));
    wishes.extend(loose(random, nodes, 8));
    wishes
}

fn dense(random: &mut Random, nodes: &[Row]) -> Vec<Wish> {
    let mut wishes = Vec::new();
    for kind in MEMBER..=APPLIES {
        let Some((from_sort, to_sort)) = end_types(kind) else { continue };
        for from in rows_of(nodes, from_sort) {
            for to in rows_of(nodes, to_sort) {
                if from != to && random.one_in(2) {
                    wishes.push((kind, from, to));
                }
            }
        }
    }
    wishes
}
