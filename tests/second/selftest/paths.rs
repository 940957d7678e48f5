//! Tests of the answers about paths: every path of small sheets is counted out
//! and compared with what the closure says.

use std::collections::BTreeSet;

use crate::generate::lists::{any_list, path_ask, words, Shelf};
use crate::generate::random::Random;
use crate::generate::scene;
use crate::model::answer::is_path;
use crate::model::closure::{has_path, witness};
use crate::model::judge::judge_words;
use crate::model::marks::has;
use crate::model::office::{Ask, Office, Side};
use crate::model::sheet::*;
use crate::run::tally::Tally;

/// Every path of one office and side, row by row and without any cleverness.
pub fn all_paths(sheet: &Sheet, office: u32, side: Side) -> BTreeSet<Vec<u32>> {
    let starts =
        (0..sheet.nodes.len() as u32).filter(|&row| sheet.nodes[row as usize][0] == PERSON);
    let mut found = BTreeSet::new();
    for start in starts {
        extend(sheet, office, side, &mut vec![start], &mut found);
    }
    found
}

fn extend(
    sheet: &Sheet,
    office: u32,
    side: Side,
    rows: &mut Vec<u32>,
    found: &mut BTreeSet<Vec<u32>>,
) {
    let here = rows[rows.len() - 1];
    if sheet.nodes[here as usize][0] == FOLIO {
        let node = |&row: &u32| [sheet.nodes[row as usize][1], sheet.nodes[row as usize][2]];
        found.insert(rows.iter().flat_map(node).collect());
        return;
    }
    for &[kind, from, to, offices] in &sheet.edges {
        let (low, high) = match (side, kind) {
            (Side::Grant, BAN) | (Side::Ban, GRANT) => continue,
            (Side::Ban, CONTAINED) => (to, from),
            _ => (from, to),
        };
        if low == here && has(offices, office) && !rows.contains(&high) {
            rows.push(high);
            extend(sheet, office, side, rows, found);
            rows.pop();
        }
    }
}

pub fn ask_words(list: &[u32]) -> Ask {
    let nodes: Vec<(u32, u32)> = list.chunks(2).map(|two| (two[0], two[1])).collect();
    path_ask(&nodes)
}

/// The closure's answers against the paths counted out.
pub fn run(tally: &mut Tally) {
    for number in 0..800 {
        let random = &mut Random::for_case(7, number);
        let sheet = scene::small(random);
        let sheet_words = sheet.words();
        let name = format!("small sheet {number}");
        tally.test(&format!("{name} is valid"), judge_words(&sheet_words).number == 0);
        let office = random.between(1, sheet.office_count as usize) as u32;
        for side in [Side::Grant, Side::Ban] {
            let here = Office::of(&sheet_words, office);
            let paths = all_paths(&sheet, office, side);
            let agreed = all_triples_agree(&here, side, &paths);
            tally.test(&format!("{name}, every {side:?} witness"), agreed);
            let all = paths.iter().all(|list| is_path(&here, side, &ask_words(list), list));
            tally.test(&format!("{name}, every {side:?} path as a list"), all);
            let agreed = (0..20).all(|_| list_agrees(random, &here, side, &paths));
            tally.test(&format!("{name}, any {side:?} list"), agreed);
        }
    }
}

fn all_triples_agree(here: &Office, side: Side, paths: &BTreeSet<Vec<u32>>) -> bool {
    here.persons.iter().all(|&person| {
        here.folios.iter().all(|&folio| {
            here.deeds.iter().all(|&(deed, _)| {
                let ask = Ask { person, deed, folio };
                let fitting = paths.iter().filter(|list| ask_words(list) == ask);
                let best = fitting.min_by_key(|list| (list.len(), list.to_vec()));
                let found = witness(here, side, &ask).map(|path| words(&path));
                found.as_ref() == best && has_path(here, side, &ask) == best.is_some()
            })
        })
    })
}

fn list_agrees(random: &mut Random, here: &Office, side: Side, paths: &BTreeSet<Vec<u32>>) -> bool {
    let any = paths.iter().nth(random.below(paths.len().max(1)));
    let ask = any.map_or(Ask { person: 1, deed: 1, folio: 1 }, |list| ask_words(list));
    let elsewhere = [Office::default()];
    let list = any_list(random, &Shelf { here, elsewhere: &elsewhere, side, ask });
    let listed = paths.contains(&list) && ask_words(&list) == ask;
    is_path(here, side, &ask, &list) == listed
}
