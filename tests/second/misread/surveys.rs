//! Wrong versions of questions 5 to 9, and of what they have in common with 10.

use std::collections::BTreeSet;

use crate::misread::{redundant, wrong, Asked, Misreading, Outcome};
use crate::model::answer::{insist, refusal, sound, Refusal};
use crate::model::closure::Ranks;
use crate::model::limits::edge_offset;
use crate::model::marks::next_office;
use crate::model::office::{Office, Side};
use crate::model::reach::Reach;
use crate::model::sheet::*;
use crate::model::survey::*;
use crate::trial::request::Request;

/// A question to an accepted sheet, at an office it has.
pub struct Asking {
    pub operation: u32,
    pub numbers: [u32; 6],
    pub words: Vec<u32>,
    pub room: usize,
}

impl Asked for Asking {
    fn of(request: &Request) -> Option<Asking> {
        let &Request { operation, numbers, out_len: room, .. } = request;
        let words = words_of(&request.first);
        sound(&words, 1).ok()?;
        let known = (1..=office_count(&words)).contains(&numbers[0]);
        known.then_some(Asking { operation, numbers, words, room })
    }
}

#[rustfmt::skip]
pub fn all() -> Vec<Misreading<Asking>> {
    let mut all = vec![
        wrong("bans the same way as grants", &[8], bans_as_grants),
        wrong("grants the same way as bans", &[5, 6, 7, 8, 9], grants_as_bans),
        wrong("containment is not looked at", &[5, 6, 7, 8, 9], no_step),
        wrong("containment over one step alone", &[5, 6, 7, 8, 9], one_step),
        wrong("variants are fused", &[6, 7, 8, 9], variants_fused),
        wrong("paths that change office", &[5, 6, 7, 8, 9], stitched_paths),
        wrong("edges marked by their ends", &[5, 6, 7, 8, 9], marked_by_ends),
        wrong("the other office's rows", &[5, 6, 7, 8, 9], other_office),
        wrong("known to any office", &[5, 6, 9], known_anywhere),
        wrong("a ban takes a person off", &[6, 7, 9], banned_are_off),
        wrong("a folio without an edge is left out", &[7], only_applied),
        wrong("Both by one variant alone", &[8], both_by_node),
        wrong("persons are not compared first", &[8], deeds_first),
        wrong("folios are compared before deeds", &[8], folios_before_deeds),
        wrong("persons are not compared first", &[9], folios_first),
        wrong("each deed by another person", &[9], another_person),
        wrong("each deed on another folio", &[9], another_folio),
        wrong("equal deeds are answered", &[9], no_equal_deeds),
        wrong("equal deeds before unknown ones", &[9], equal_first),
        wrong("a list is once for each way", &[5], once_each_way),
        wrong("a list falls", &[5, 6, 7], falling),
        wrong("no room before nothing found", &[8, 9], room_first),
        wrong("an empty list is refused", &[5, 6, 7, 10], empty_refused),
        wrong("an exact room is too short", &[5, 6, 7, 8, 9, 10], exact_refused),
        wrong("what fits is written", &[5, 6, 7, 8, 9, 10], cut_to_fit),
        wrong("the folio before the deed", &[6], folio_before_deed),
    ];
    all.extend(redundant::all());
    all
}

impl Asking {
    pub fn office(&self) -> Office {
        Office::of(&self.words, self.numbers[0])
    }

    fn known(&self) -> Result<(), Refusal> {
        known(&self.office(), self.operation, &self.numbers)
    }

    /// The right answer, but for what is given instead of the room.
    fn right(&self, room: usize) -> Outcome {
        survey(self.operation, &self.numbers, &self.words, room)
    }

    /// Refusals as they should be, and the rest from what is seen.
    fn seen(&self, office: &Office) -> Outcome {
        self.reached(&Reach::of(office))
    }

    fn reached(&self, reach: &Reach) -> Outcome {
        self.known()?;
        fitted(result(reach, self.operation, &self.numbers), self.room)
    }

    fn found(&self, found: Option<Vec<u32>>) -> Outcome {
        self.known()?;
        fitted(found, self.room)
    }
}

fn bans_as_grants(asking: &Asking) -> Outcome {
    let office = asking.office();
    let mut reach = Reach::of(&office);
    reach.below = reach.above.clone();
    asking.reached(&reach)
}

fn grants_as_bans(asking: &Asking) -> Outcome {
    let office = asking.office();
    let mut reach = Reach::of(&office);
    reach.above = reach.below.clone();
    asking.reached(&reach)
}

fn no_step(asking: &Asking) -> Outcome {
    let mut office = asking.office();
    office.contained.clear();
    asking.seen(&office)
}

fn one_step(asking: &Asking) -> Outcome {
    let office = asking.office();
    let mut reach = Reach::of(&office);
    for (side, sets) in [(Side::Grant, &mut reach.above), (Side::Ban, &mut reach.below)] {
        *sets = Ranks::of(&office, side).next;
        sets.iter_mut().enumerate().for_each(|(rank, set)| set.add(rank));
    }
    asking.reached(&reach)
}

fn variants_fused(asking: &Asking) -> Outcome {
    asking.seen(&asking.office().fused())
}

/// Nodes of the office asked, edges of any.
fn stitched_paths(asking: &Asking) -> Outcome {
    let (office, mut all) = (asking.office(), Office::stitched(&asking.words));
    (all.persons, all.folios) = (office.persons, office.folios);
    asking.seen(&all)
}

fn marked_by_ends(asking: &Asking) -> Outcome {
    let mut words = asking.words.clone();
    let nodes = node_rows(&words);
    let mark = |row: u32| nodes[row as usize][3];
    let (at, width) = (edge_offset(nodes.len()), form(&words).edge_width());
    for row in words[at..].chunks_mut(width) {
        row[3] = mark(row[1]) & mark(row[2]);
    }
    asking.seen(&Office::of(&words, asking.numbers[0]))
}

fn other_office(asking: &Asking) -> Outcome {
    let mut numbers = asking.numbers;
    numbers[0] = next_office(numbers[0], office_count(&asking.words));
    survey(asking.operation, &numbers, &asking.words, asking.room)
}

fn known_anywhere(asking: &Asking) -> Outcome {
    known(&Office::stitched(&asking.words), asking.operation, &asking.numbers)?;
    let mut office = asking.office();
    // A category that is not here has nobody in it.
    office.categories = Office::stitched(&asking.words).categories;
    fitted(result(&Reach::of(&office), asking.operation, &asking.numbers), asking.room)
}

fn pairs_off(reach: &Reach, person: u32) -> BTreeSet<(u32, u32)> {
    let banned = reach.pairs(Side::Ban, person);
    reach.pairs(Side::Grant, person).difference(&banned).copied().collect()
}

fn banned_are_off(asking: &Asking) -> Outcome {
    let office = asking.office();
    let reach = Reach::of(&office);
    let [one, other] = [asking.numbers[1], asking.numbers[2]];
    let persons = || office.persons.iter().map(|&person| (person, pairs_off(&reach, person)));
    let found = match asking.operation {
        GRANTED => {
            let listed = persons().filter(|(_, pairs)| pairs.contains(&(one, other)));
            Some(listed.map(|(person, _)| person).collect())
        }
        NOT_GRANTED => {
            let free: BTreeSet<u32> =
                persons().flat_map(|(_, pairs)| pairs).map(|pair| pair.1).collect();
            Some(office.folios.difference(&free).copied().collect())
        }
        _ => persons().find_map(|(person, pairs)| {
            let both =
                |&&folio: &&u32| pairs.contains(&(one, folio)) && pairs.contains(&(other, folio));
            office.folios.iter().find(both).map(|&folio| vec![person, folio])
        }),
    };
    asking.found(found)
}

fn only_applied(asking: &Asking) -> Outcome {
    let mut office = asking.office();
    office.folios = office.applies.iter().map(|pair| pair.1).collect();
    asking.seen(&office)
}

fn both_triples(reach: &Reach) -> Vec<[u32; 3]> {
    let persons = reach.office.persons.iter();
    let triples = persons.flat_map(|&person| {
        both_pairs(reach, person).into_iter().map(move |(deed, folio)| [person, deed, folio])
    });
    triples.collect()
}

fn both_by_node(asking: &Asking) -> Outcome {
    let office = asking.office();
    let reach = Reach::of(&office);
    let one_node = |&[person, deed, folio]: &[u32; 3]| {
        let nodes = |side| reach.nodes_of(side, person, deed, folio);
        !nodes(Side::Grant).is_disjoint(&nodes(Side::Ban))
    };
    asking.found(both_triples(&reach).into_iter().find(one_node).map(Vec::from))
}

fn deeds_first(asking: &Asking) -> Outcome {
    let office = asking.office();
    let triples = both_triples(&Reach::of(&office)).into_iter();
    asking.found(triples.min_by_key(|&[person, deed, folio]| [deed, person, folio]).map(Vec::from))
}

fn folios_before_deeds(asking: &Asking) -> Outcome {
    let office = asking.office();
    let triples = both_triples(&Reach::of(&office)).into_iter();
    asking.found(triples.min_by_key(|&[person, deed, folio]| [person, folio, deed]).map(Vec::from))
}

/// Every person with the folios of each of the two deeds.
fn shares(reach: &Reach, asking: &Asking) -> Vec<(u32, BTreeSet<u32>, BTreeSet<u32>)> {
    let of = |person: u32, at: usize| reach.folios(Side::Grant, person, asking.numbers[at]);
    let persons = reach.office.persons.iter();
    persons.map(|&person| (person, of(person, 1), of(person, 2))).collect()
}

fn folios_first(asking: &Asking) -> Outcome {
    let office = asking.office();
    let shares = shares(&Reach::of(&office), asking);
    let pairs = shares.iter().flat_map(|(person, one, other)| {
        one.intersection(other).map(move |&folio| (folio, *person))
    });
    asking.found(pairs.min().map(|(folio, person)| vec![person, folio]))
}

fn another_person(asking: &Asking) -> Outcome {
    let office = asking.office();
    let shares = shares(&Reach::of(&office), asking);
    let others: BTreeSet<u32> = shares.iter().flat_map(|share| share.2.clone()).collect();
    let mut pairs = shares.iter().filter_map(|(person, one, _)| {
        one.intersection(&others).next().map(|&folio| vec![*person, folio])
    });
    asking.found(pairs.next())
}

fn another_folio(asking: &Asking) -> Outcome {
    let office = asking.office();
    let shares = shares(&Reach::of(&office), asking);
    let mut pairs = shares.iter().filter(|share| !share.2.is_empty());
    asking.found(pairs.find_map(|(person, one, _)| Some(vec![*person, *one.first()?])))
}

/// Equal deeds are answered as one.
fn no_equal_deeds(asking: &Asking) -> Outcome {
    let office = asking.office();
    insist(office.knows_deed(asking.numbers[1]) && office.knows_deed(asking.numbers[2]), 22)?;
    fitted(result(&Reach::of(&office), asking.operation, &asking.numbers), asking.room)
}

fn equal_first(asking: &Asking) -> Outcome {
    insist(asking.numbers[1] != asking.numbers[2], 31)?;
    asking.right(asking.room)
}

fn folio_before_deed(asking: &Asking) -> Outcome {
    insist(asking.office().folios.contains(&asking.numbers[2]), 23)?;
    asking.right(asking.room)
}

fn once_each_way(asking: &Asking) -> Outcome {
    asking.known()?;
    let office = asking.office();
    let reach = Reach::of(&office);
    let inside = |pair: &&(u32, u32)| reach.leads(Side::Grant, pair.1, asking.numbers[1]);
    asking.found(Some(office.member.iter().filter(inside).map(|pair| pair.0).collect()))
}

fn falling(asking: &Asking) -> Outcome {
    let mut answer = asking.right(asking.room)?;
    answer.written.reverse();
    Ok(answer)
}

fn room_first(asking: &Asking) -> Outcome {
    asking.known()?;
    insist(asking.room >= if asking.operation == BOTH { 3 } else { 2 }, 25)?;
    asking.right(asking.room)
}

fn empty_refused(asking: &Asking) -> Outcome {
    let answer = asking.right(asking.room)?;
    if answer.written.is_empty() {
        return Err(refusal(26));
    }
    Ok(answer)
}

fn exact_refused(asking: &Asking) -> Outcome {
    let answer = asking.right(asking.room)?;
    insist(answer.written.len() < asking.room, 25)?;
    Ok(answer)
}

fn cut_to_fit(asking: &Asking) -> Outcome {
    let mut answer = asking.right(usize::MAX)?;
    answer.written.truncate(asking.room);
    answer.count = answer.written.len() as u32;
    Ok(answer)
}
