//! What the answers to questions 5 to 10 must have held, goal by goal: each of
//! them is a place where a mistake would show.

use crate::goals::redundant;
use crate::model::office::{Office, Side};
use crate::model::reach::Reach;
use crate::model::sheet::office_count;
use crate::model::survey::*;
use crate::trial::request::Request;

const CONTENTS: [(u32, &[&str]); 5] = [
    (
        IN_CATEGORY,
        &["through containment alone", "through a ring", "some listed and some not", "all listed"],
    ),
    (GRANTED, &["listed and banned", "by one of several variants", "some listed and some not"]),
    (
        NOT_GRANTED,
        &[
            "a folio without an edge",
            "a folio with a ban",
            "a folio that another variant would reach",
            "a folio granted at the other office alone",
            "some listed and some not",
        ],
    ),
    (
        BOTH,
        &[
            "by different variants alone",
            "not the lowest person",
            "persons compared first",
            "deeds compared before folios",
        ],
    ),
    (
        TWO_DEEDS,
        &[
            "not the lowest person",
            "persons compared first",
            "the first deed above the second",
            "the first deed below the second",
        ],
    ),
];

pub fn needed() -> Vec<(u32, String)> {
    let mut goals = Vec::new();
    for (operation, contents) in CONTENTS {
        goals.extend(contents.iter().map(|goal| (operation, goal.to_string())));
    }
    goals.extend(redundant::needed().into_iter().map(|goal| (REDUNDANT, goal)));
    goals
}

/// The goals that what is written meets.
pub fn met(request: &Request, words: &[u32], written: &[u32]) -> Vec<String> {
    let office = Office::of(words, request.numbers[0]);
    let reach = Reach::of(&office);
    let [first, second] = [request.numbers[1], request.numbers[2]];
    let goals = match request.operation {
        IN_CATEGORY => of_category(&reach, first, written),
        GRANTED => of_granted(&reach, first, second, written),
        NOT_GRANTED => of_not_granted(&reach, words, written),
        BOTH => of_both(&reach, written),
        TWO_DEEDS => of_two_deeds(&reach, first, second, written),
        _ => return redundant::met(&reach, words, request.numbers[0], written),
    };
    let met = goals.into_iter().filter(|(_, met)| *met);
    met.map(|(goal, _)| goal.to_string()).collect()
}

type Met = Vec<(&'static str, bool)>;

fn of_category(reach: &Reach, category: u32, written: &[u32]) -> Met {
    let office = reach.office;
    let direct = |person: &u32| office.member.contains(&(*person, category));
    let inherited = !written.iter().all(direct);
    vec![
        ("through containment alone", inherited),
        ("through a ring", inherited && reach.on_ring(category)),
        ("some listed and some not", partly(written, office.persons.len())),
        ("all listed", !written.is_empty() && written.len() == office.persons.len()),
    ]
}

fn partly(written: &[u32], all: usize) -> bool {
    !written.is_empty() && written.len() < all
}

fn of_granted(reach: &Reach, deed: u32, folio: u32, written: &[u32]) -> Met {
    let office = reach.office;
    let banned = |&person: &u32| reach.pairs(Side::Ban, person).contains(&(deed, folio));
    let serving = office.applies.iter().filter(|pair| pair.0 .0 == deed && pair.1 == folio);
    vec![
        ("listed and banned", written.iter().any(banned)),
        ("by one of several variants", !written.is_empty() && serving.count() > 1),
        ("some listed and some not", partly(written, office.persons.len())),
    ]
}

fn of_not_granted(reach: &Reach, words: &[u32], written: &[u32]) -> Met {
    let office = reach.office;
    let edged = |folio: &u32| office.applies.iter().any(|pair| pair.1 == *folio);
    let banned = |&folio: &u32| reaches(reach, Side::Ban, folio);
    let fused = office.fused();
    let fused_reach = Reach::of(&fused);
    let elsewhere: Vec<Office> =
        (1..=office_count(words)).map(|number| Office::of(words, number)).collect();
    let granted =
        |folio: u32| elsewhere.iter().any(|office| reaches(&Reach::of(office), Side::Grant, folio));
    vec![
        ("a folio without an edge", !written.iter().all(edged)),
        ("a folio with a ban", written.iter().any(banned)),
        (
            "a folio that another variant would reach",
            written.iter().any(|&folio| reaches(&fused_reach, Side::Grant, folio)),
        ),
        ("a folio granted at the other office alone", written.iter().any(|&folio| granted(folio))),
        ("some listed and some not", partly(written, office.folios.len())),
    ]
}

/// Whether some person has a path of this side to the folio by some deed.
fn reaches(reach: &Reach, side: Side, folio: u32) -> bool {
    let mut persons = reach.office.persons.iter();
    persons.any(|&person| reach.pairs(side, person).iter().any(|pair| pair.1 == folio))
}

fn of_both(reach: &Reach, written: &[u32]) -> Met {
    let [person, deed, folio] = [written[0], written[1], written[2]];
    let persons = &reach.office.persons;
    let triples = persons.iter().flat_map(|&person| {
        both_pairs(reach, person).into_iter().map(move |(deed, folio)| (person, deed, folio))
    });
    let triples: Vec<(u32, u32, u32)> = triples.collect();
    let by_deed = triples.iter().min_by_key(|&&(person, deed, folio)| (deed, person, folio));
    let by_folio = triples.iter().filter(|triple| triple.0 == person).min_by_key(|triple| triple.2);
    let nodes = reach.nodes_of(Side::Grant, person, deed, folio);
    let banned = reach.nodes_of(Side::Ban, person, deed, folio);
    vec![
        ("by different variants alone", nodes.is_disjoint(&banned)),
        ("not the lowest person", persons.first() != Some(&person)),
        ("persons compared first", by_deed != Some(&(person, deed, folio))),
        ("deeds compared before folios", by_folio.is_some_and(|triple| triple.2 < folio)),
    ]
}

fn of_two_deeds(reach: &Reach, one: u32, other: u32, written: &[u32]) -> Met {
    let persons = &reach.office.persons;
    let folios = persons.iter().flat_map(|&person| shared_folios(reach, person, one, other));
    vec![
        ("not the lowest person", persons.first() != Some(&written[0])),
        ("persons compared first", folios.min().is_some_and(|least| least < written[1])),
        ("the first deed above the second", one > other),
        ("the first deed below the second", one < other),
    ]
}
