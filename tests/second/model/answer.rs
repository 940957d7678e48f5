//! The first four questions, answered from the sets of each office, with
//! their refusals in the order of the table.

use std::collections::BTreeSet;

use crate::model::closure::{has_path, witness};
use crate::model::judge::{judge_words, Verdict, ACCEPTED};
use crate::model::office::{Ask, Office, Side};
use crate::model::sheet::office_count;
use crate::model::survey::{is_survey, survey, REDUNDANT};

pub const ANSWER: u32 = 1;
pub const JOINT: u32 = 2;
pub const WITNESS: u32 = 3;
pub const LISTED: u32 = 4;

#[derive(Clone, Debug, PartialEq)]
pub struct Refusal {
    pub number: u32,
    pub sheet: u32,
    pub row: u32,
}

#[derive(Clone, Debug, Default, PartialEq)]
pub struct Answer {
    pub value: u32,
    pub count: u32,
    pub extras: [u32; 2],
    pub written: Vec<u32>,
}

/// Only the sheet's own faults have a place.
pub fn refusal(number: u32) -> Refusal {
    Refusal { number, sheet: 0, row: 0 }
}

pub fn insist(holds: bool, number: u32) -> Result<(), Refusal> {
    if holds {
        Ok(())
    } else {
        Err(refusal(number))
    }
}

/// The sheet's own faults, with their place.
pub fn sound(words: &[u32], sheet: u32) -> Result<(), Refusal> {
    match judge_words(words) {
        ACCEPTED => Ok(()),
        Verdict { number, row } => Err(Refusal { number, sheet, row }),
    }
}

pub fn is_question(operation: u32) -> bool {
    (ANSWER..=REDUNDANT).contains(&operation)
}

/// What questions 3 and 4 name after the office: kind, person, deed, folio;
/// the other two have no kind.
pub fn ask_of(operation: u32, numbers: &[u32]) -> Ask {
    let at = if operation >= WITNESS { 2 } else { 1 };
    Ask { person: numbers[at], deed: numbers[at + 1], folio: numbers[at + 2] }
}

pub fn answer(
    operation: u32,
    numbers: &[u32],
    words: &[u32],
    list: &[u32],
    room: usize,
) -> Result<Answer, Refusal> {
    sound(words, 1)?;
    if operation == JOINT {
        return joint_answer(words, numbers[0], &ask_of(operation, numbers));
    }
    insist((1..=office_count(words)).contains(&numbers[0]), 20)?;
    if is_survey(operation) {
        return survey(operation, numbers, words, room);
    }
    let ask = ask_of(operation, numbers);
    let office = Office::of(words, numbers[0]);
    let side = Side::of_word(numbers[1]);
    match operation {
        ANSWER => at_office(&office, &ask),
        WITNESS => {
            known(&[&office], &ask)?;
            written_witness(&office, side, &ask, room)
        }
        _ => {
            let value = u32::from(is_path(&office, side, &ask, list));
            Ok(Answer { value, ..Answer::default() })
        }
    }
}

/// Known to one of these offices at least.
fn known(offices: &[&Office], ask: &Ask) -> Result<(), Refusal> {
    insist(offices.iter().any(|office| office.persons.contains(&ask.person)), 21)?;
    insist(offices.iter().any(|office| office.knows_deed(ask.deed)), 22)?;
    insist(offices.iter().any(|office| office.folios.contains(&ask.folio)), 23)
}

/// Question 1 of an office.
pub fn at_office(office: &Office, ask: &Ask) -> Result<Answer, Refusal> {
    known(&[office], ask)?;
    Ok(Answer { value: answer_at(office, ask), ..Answer::default() })
}

/// 1 for a grant path and 2 for a ban path, so that both make 3.
pub fn answer_at(office: &Office, ask: &Ask) -> u32 {
    let grants = u32::from(has_path(office, Side::Grant, ask));
    let bans = u32::from(has_path(office, Side::Ban, ask));
    grants + 2 * bans
}

fn joint_answer(words: &[u32], rule: u32, ask: &Ask) -> Result<Answer, Refusal> {
    insist((1..=3).contains(&rule), 27)?;
    let offices: Vec<Office> =
        (1..=office_count(words)).map(|office| Office::of(words, office)).collect();
    known(&offices.iter().collect::<Vec<_>>(), ask)?;
    let answers: Vec<u32> = offices.iter().map(|office| answer_at(office, ask)).collect();
    let (value, count) = joint(rule, &answers);
    Ok(Answer { value, count, ..Answer::default() })
}

/// The answer and the office that decides; the answers are given in the order
/// of the offices.
pub fn joint(rule: u32, answers: &[u32]) -> (u32, u32) {
    let lowest = |facts: u32| answers.iter().position(|answer| answer & facts != 0);
    let granted = lowest(1).map(|at| (1, at));
    let banned = lowest(2).map(|at| (2, at));
    let applicable = lowest(3).map(|at| (answers[at], at));
    let decided = match rule {
        1 => granted.or(banned),
        2 => banned.or(granted),
        _ => applicable,
    };
    match decided {
        Some((answer, at)) => (answer, at as u32 + 1),
        None => (0, 0),
    }
}

fn written_witness(office: &Office, side: Side, ask: &Ask, room: usize) -> Result<Answer, Refusal> {
    let path = witness(office, side, ask).ok_or(refusal(26))?;
    let written: Vec<u32> = path.iter().flat_map(|node| [node.0, node.1]).collect();
    fitting(written, room)
}

/// What is written, if there is room for it.
pub fn fitting(written: Vec<u32>, room: usize) -> Result<Answer, Refusal> {
    insist(room >= written.len(), 25)?;
    Ok(Answer { count: written.len() as u32, written, ..Answer::default() })
}

/// Whether the list is some path: each pair of neighbours is looked up in the
/// set that belongs between them.
pub fn is_path(office: &Office, side: Side, ask: &Ask, list: &[u32]) -> bool {
    if list.len() % 2 != 0 || list.len() < 8 {
        return false;
    }
    let nodes: Vec<(u32, u32)> = list.chunks(2).map(|two| (two[0], two[1])).collect();
    let (categories, ends) = nodes[1..].split_at(nodes.len() - 3);
    let (deed, folio) = (ends[0], ends[1]);
    let (first, last) = (categories[0].0, categories[categories.len() - 1].0);
    let distinct: BTreeSet<u32> = categories.iter().map(|node| node.0).collect();
    nodes[0] == (ask.person, 0)
        && folio == (ask.folio, 0)
        && deed.0 == ask.deed
        && categories.iter().all(|node| node.1 == 0)
        && distinct.len() == categories.len()
        && office.member.contains(&(ask.person, first))
        && categories.windows(2).all(|pair| office.steps(side, pair[0].0, pair[1].0))
        && office.rights(side).contains(&(last, deed))
        && office.applies.contains(&(deed, ask.folio))
}
