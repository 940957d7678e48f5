//! Questions 5 to 10, answered from what an office says of each person, with
//! their refusals in the order of the table.

use std::collections::BTreeSet;

use crate::model::answer::{fitting, insist, refusal, Answer, Refusal};
use crate::model::office::{Office, Side};
use crate::model::reach::Reach;
use crate::model::redundant::redundant_rows;

pub const IN_CATEGORY: u32 = 5;
pub const GRANTED: u32 = 6;
pub const NOT_GRANTED: u32 = 7;
pub const BOTH: u32 = 8;
pub const TWO_DEEDS: u32 = 9;
pub const REDUNDANT: u32 = 10;

pub fn is_survey(operation: u32) -> bool {
    (IN_CATEGORY..=REDUNDANT).contains(&operation)
}

/// Of an accepted sheet and an office it has.
pub fn survey(
    operation: u32,
    numbers: &[u32],
    words: &[u32],
    room: usize,
) -> Result<Answer, Refusal> {
    let office = Office::of(words, numbers[0]);
    known(&office, operation, numbers)?;
    let found = match operation {
        REDUNDANT => Some(redundant_rows(words, numbers[0])),
        _ => result(&Reach::of(&office), operation, numbers),
    };
    fitted(found, room)
}

/// 26 before 25.
pub fn fitted(found: Option<Vec<u32>>, room: usize) -> Result<Answer, Refusal> {
    fitting(found.ok_or(refusal(26))?, room)
}

/// Of questions 5 to 9; nothing where there is no triple or pair.
pub fn result(reach: &Reach, operation: u32, numbers: &[u32]) -> Option<Vec<u32>> {
    match operation {
        IN_CATEGORY => Some(in_category(reach, numbers[1])),
        GRANTED => Some(granted(reach, numbers[1], numbers[2])),
        NOT_GRANTED => Some(not_granted(reach)),
        BOTH => both(reach),
        _ => two_deeds(reach, numbers[1], numbers[2]),
    }
}

pub fn known(office: &Office, operation: u32, numbers: &[u32]) -> Result<(), Refusal> {
    match operation {
        IN_CATEGORY => insist(office.categories.contains(&numbers[1]), 24),
        GRANTED => {
            insist(office.knows_deed(numbers[1]), 22)?;
            insist(office.folios.contains(&numbers[2]), 23)
        }
        TWO_DEEDS => {
            insist(office.knows_deed(numbers[1]), 22)?;
            insist(office.knows_deed(numbers[2]), 22)?;
            insist(numbers[1] != numbers[2], 31)
        }
        _ => Ok(()),
    }
}

/// Sets keep their numbers rising.
fn persons(reach: &Reach, listed: impl Fn(u32) -> bool) -> Vec<u32> {
    reach.office.persons.iter().copied().filter(|&person| listed(person)).collect()
}

fn in_category(reach: &Reach, category: u32) -> Vec<u32> {
    persons(reach, |person| reach.own(person).any(|own| reach.leads(Side::Grant, own, category)))
}

fn granted(reach: &Reach, deed: u32, folio: u32) -> Vec<u32> {
    persons(reach, |person| reach.pairs(Side::Grant, person).contains(&(deed, folio)))
}

fn not_granted(reach: &Reach) -> Vec<u32> {
    let mut folios = reach.office.folios.clone();
    for &person in &reach.office.persons {
        for (_, folio) in reach.pairs(Side::Grant, person) {
            folios.remove(&folio);
        }
    }
    folios.into_iter().collect()
}

/// The pairs of deed and folio that are Both for this person.
pub fn both_pairs(reach: &Reach, person: u32) -> BTreeSet<(u32, u32)> {
    let banned = reach.pairs(Side::Ban, person);
    reach.pairs(Side::Grant, person).intersection(&banned).copied().collect()
}

fn both(reach: &Reach) -> Option<Vec<u32>> {
    reach.office.persons.iter().find_map(|&person| {
        let (deed, folio) = both_pairs(reach, person).first().copied()?;
        Some(vec![person, deed, folio])
    })
}

/// The folios for which the person has a grant path by each of the deeds.
pub fn shared_folios(reach: &Reach, person: u32, one: u32, other: u32) -> BTreeSet<u32> {
    let of_other = reach.folios(Side::Grant, person, other);
    reach.folios(Side::Grant, person, one).intersection(&of_other).copied().collect()
}

fn two_deeds(reach: &Reach, one: u32, other: u32) -> Option<Vec<u32>> {
    reach.office.persons.iter().find_map(|&person| {
        let folio = shared_folios(reach, person, one, other).first().copied()?;
        Some(vec![person, folio])
    })
}
