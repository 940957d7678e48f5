//! Wrong versions of taking out.

use crate::misread::{wrong, Asked, Misreading, Outcome};
use crate::model::answer::{fitting, insist, sound, Refusal};
use crate::model::contents::Contents;
use crate::model::join::one_office;
use crate::model::limits::{edge_offset, HEADER};
use crate::model::marks::next_office;
use crate::model::sheet::*;
use crate::model::take_out::{own, take_out};
use crate::trial::operation::TAKE_OUT;
use crate::trial::request::{Request, MOST_OUTPUT};

pub struct Taking {
    words: Vec<u32>,
    office: u32,
    room: usize,
}

const TAKEN: &[u32] = &[TAKE_OUT];

pub const WRONG: [Misreading<Taking>; 17] = [
    wrong("keeps the other office's edge", TAKEN, keeps_edges),
    wrong("does not renumber the ends", TAKEN, ends_kept),
    wrong("leaves the marks as they are", TAKEN, marks_kept),
    wrong("counts two offices", TAKEN, counts_two),
    wrong("takes the other office out", TAKEN, other_office),
    wrong("copies the sheet", TAKEN, copies),
    wrong("leaves out what both offices have", TAKEN, without_shared),
    wrong("leaves out nodes without an edge", TAKEN, without_lone_nodes),
    wrong("leaves out the edges", TAKEN, without_edges),
    wrong("20 before the sheet's faults", TAKEN, office_first),
    wrong("25 before 20", TAKEN, room_before_office),
    wrong("a sheet of one office is refused", TAKEN, one_refused),
    wrong("office 2 of one has nothing", TAKEN, second_of_one),
    wrong("office 3 is both", TAKEN, third_is_both),
    wrong("office 0 is both", TAKEN, none_is_both),
    wrong("an exact room is too short", TAKEN, exact_refused),
    wrong("what fits is written", TAKEN, cut_to_fit),
];

impl Asked for Taking {
    fn of(request: &Request) -> Option<Taking> {
        let (words, office) = (words_of(&request.first), request.numbers[0]);
        Some(Taking { words, office, room: request.out_len })
    }
}

impl Taking {
    fn right(&self) -> Outcome {
        take_out(&self.words, self.office, self.room)
    }

    /// What the sheet holds, once the office may be taken out.
    fn contents(&self) -> Result<Contents, Refusal> {
        sound(&self.words, 1)?;
        insist((1..=office_count(&self.words)).contains(&self.office), 20)?;
        Ok(Contents::of(&self.words))
    }

    fn fitting(&self, part: &Contents) -> Outcome {
        fitting(part.words(1), self.room)
    }
}

fn keeps_edges(taking: &Taking) -> Outcome {
    let whole = taking.contents()?;
    let mut part = own(&whole, taking.office);
    for link in whole.edges.keys() {
        if part.nodes.contains_key(&link.1) && part.nodes.contains_key(&link.2) {
            part.edges.insert(*link, 1);
        }
    }
    taking.fitting(&part)
}

fn ends_kept(taking: &Taking) -> Outcome {
    let whole = taking.contents()?;
    let part = own(&whole, taking.office);
    let mut words = part.words(1);
    let kept = edge_rows(&taking.words)
        .zip(whole.edges.keys())
        .filter(|(_, link)| part.edges.contains_key(link));
    let (at, width) = (edge_offset(node_count(&words)), form(&words).edge_width());
    for (to, (row, _)) in words[at..].chunks_mut(width).zip(kept) {
        to[..3].copy_from_slice(&row[..3]);
    }
    fitting(words, taking.room)
}

fn marks_kept(taking: &Taking) -> Outcome {
    let whole = taking.contents()?;
    let mut part = own(&whole, taking.office);
    part.nodes.iter_mut().for_each(|(identity, offices)| *offices = whole.nodes[identity]);
    part.edges.iter_mut().for_each(|(link, offices)| *offices = whole.edges[link]);
    taking.fitting(&part)
}

fn counts_two(taking: &Taking) -> Outcome {
    let part = own(&taking.contents()?, taking.office);
    fitting(part.words(2), taking.room)
}

fn other_office(taking: &Taking) -> Outcome {
    let whole = taking.contents()?;
    let office = next_office(taking.office, office_count(&taking.words));
    taking.fitting(&own(&whole, office))
}

fn copies(taking: &Taking) -> Outcome {
    taking.contents()?;
    fitting(taking.words.clone(), taking.room)
}

fn without_shared(taking: &Taking) -> Outcome {
    let mut whole = taking.contents()?;
    whole.nodes.retain(|_, offices| offices.count_ones() == 1);
    let Contents { nodes, edges } = &mut whole;
    edges.retain(|link, _| nodes.contains_key(&link.1) && nodes.contains_key(&link.2));
    taking.fitting(&own(&whole, taking.office))
}

fn without_lone_nodes(taking: &Taking) -> Outcome {
    let mut part = own(&taking.contents()?, taking.office);
    let Contents { nodes, edges } = &mut part;
    nodes.retain(|node, _| edges.keys().any(|link| link.1 == *node || link.2 == *node));
    taking.fitting(&part)
}

fn without_edges(taking: &Taking) -> Outcome {
    let mut part = own(&taking.contents()?, taking.office);
    part.edges.clear();
    taking.fitting(&part)
}

fn office_first(taking: &Taking) -> Outcome {
    let count = taking.words.get(1).copied().unwrap_or(0);
    insist((1..=count).contains(&taking.office), 20)?;
    taking.right()
}

/// Room for a header at least.
fn room_before_office(taking: &Taking) -> Outcome {
    sound(&taking.words, 1)?;
    insist(taking.room >= HEADER, 25)?;
    taking.right()
}

fn one_refused(taking: &Taking) -> Outcome {
    sound(&taking.words, 1)?;
    if one_office(&taking.words, 1).is_ok() {
        return Err(Refusal { number: 28, sheet: 1, row: 0 });
    }
    taking.right()
}

fn second_of_one(taking: &Taking) -> Outcome {
    sound(&taking.words, 1)?;
    match taking.office {
        2 => taking.fitting(&own(&Contents::of(&taking.words), 2)),
        _ => taking.right(),
    }
}

/// Every row, marked 1.
fn everything(taking: &Taking) -> Outcome {
    let mut whole = Contents::of(&taking.words);
    let marks = whole.nodes.values_mut().chain(whole.edges.values_mut());
    marks.for_each(|offices| *offices = 1);
    taking.fitting(&whole)
}

fn third_is_both(taking: &Taking) -> Outcome {
    sound(&taking.words, 1)?;
    match taking.office {
        3 => everything(taking),
        _ => taking.right(),
    }
}

fn none_is_both(taking: &Taking) -> Outcome {
    sound(&taking.words, 1)?;
    match taking.office {
        0 => everything(taking),
        _ => taking.right(),
    }
}

fn exact_refused(taking: &Taking) -> Outcome {
    let answer = taking.right()?;
    insist(taking.room > answer.written.len(), 25)?;
    Ok(answer)
}

fn cut_to_fit(taking: &Taking) -> Outcome {
    let mut answer = take_out(&taking.words, taking.office, MOST_OUTPUT)?;
    answer.written.truncate(taking.room);
    Ok(answer)
}
