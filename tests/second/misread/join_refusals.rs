//! Wrong versions of joining that refuse too much, too little or in another order.

use crate::misread::joins::{Joining, JOINED};
use crate::misread::{wrong, Misreading, Outcome};
use crate::model::answer::{fitting, insist, sound, Answer, Refusal};
use crate::model::contents::Contents;
use crate::model::join::{join, one_office, shared, union, JOINT_OFFICES};
use crate::model::limits::{Form, MOST_EDGES, MOST_NODES};
use crate::model::sheet::*;
use crate::trial::request::MOST_OUTPUT;

pub const WRONG: [Misreading<Joining>; 14] = [
    wrong("29 by the counts added", JOINED, added_nodes),
    wrong("30 by the counts added", JOINED, added_edges),
    wrong("the most nodes are too many", JOINED, fewer_nodes),
    wrong("the most edges are too many", JOINED, fewer_edges),
    wrong("30 before 29", JOINED, edges_first),
    wrong("25 before 29 and 30", JOINED, room_first),
    wrong("28 before the second sheet's faults", JOINED, offices_before_second),
    wrong("28 of the second sheet first", JOINED, second_office_first),
    wrong("28 without a place", JOINED, office_without_place),
    wrong("sheets of two offices are joined", JOINED, offices_not_counted),
    wrong("the second sheet's faults first", JOINED, second_checked_first),
    wrong("every fault is sheet 1's", JOINED, always_sheet_one),
    wrong("an exact room is too short", JOINED, exact_refused),
    wrong("what fits is written", JOINED, cut_to_fit),
];

fn added_nodes(joining: &Joining) -> Outcome {
    joining.inputs()?;
    insist(node_count(&joining.first) + node_count(&joining.second) <= MOST_NODES, 29)?;
    joining.right()
}

fn added_edges(joining: &Joining) -> Outcome {
    let (one, other) = joining.inputs()?;
    insist(union(&one, &other).nodes.len() <= MOST_NODES, 29)?;
    insist(edge_count(&joining.first) + edge_count(&joining.second) <= MOST_EDGES, 30)?;
    joining.right()
}

fn fewer_nodes(joining: &Joining) -> Outcome {
    let (one, other) = joining.inputs()?;
    insist(union(&one, &other).nodes.len() < MOST_NODES, 29)?;
    joining.right()
}

fn fewer_edges(joining: &Joining) -> Outcome {
    let (one, other) = joining.inputs()?;
    insist(union(&one, &other).nodes.len() <= MOST_NODES, 29)?;
    insist(union(&one, &other).edges.len() < MOST_EDGES, 30)?;
    joining.right()
}

fn edges_first(joining: &Joining) -> Outcome {
    let (one, other) = joining.inputs()?;
    insist(union(&one, &other).edges.len() <= MOST_EDGES, 30)?;
    joining.right()
}

fn room_first(joining: &Joining) -> Outcome {
    let (one, other) = joining.inputs()?;
    let joint = union(&one, &other);
    insist(joining.room >= Form::One.length(joint.nodes.len(), joint.edges.len()), 25)?;
    joining.right()
}

fn offices_before_second(joining: &Joining) -> Outcome {
    sound(&joining.first, 1)?;
    one_office(&joining.first, 1)?;
    joining.right()
}

fn second_office_first(joining: &Joining) -> Outcome {
    sound(&joining.first, 1)?;
    sound(&joining.second, 2)?;
    one_office(&joining.second, 2)?;
    joining.right()
}

fn office_without_place(joining: &Joining) -> Outcome {
    joining.right().map_err(|fault| match fault.number {
        28 => Refusal { sheet: 0, ..fault },
        _ => fault,
    })
}

/// Each sheet is read as if it had one office.
fn offices_not_counted(joining: &Joining) -> Outcome {
    sound(&joining.first, 1)?;
    sound(&joining.second, 2)?;
    let (one, other) = (Contents::of(&joining.first), Contents::of(&joining.second));
    let joint = union(&one, &other);
    insist(joint.nodes.len() <= MOST_NODES, 29)?;
    insist(joint.edges.len() <= MOST_EDGES, 30)?;
    let extras = [shared(&one.nodes, &other.nodes), shared(&one.edges, &other.edges)];
    let answer = fitting(joint.words(JOINT_OFFICES), joining.room)?;
    Ok(Answer { value: joint.nodes.len() as u32, extras, ..answer })
}

fn second_checked_first(joining: &Joining) -> Outcome {
    sound(&joining.second, 2)?;
    joining.right()
}

fn always_sheet_one(joining: &Joining) -> Outcome {
    joining.right().map_err(|fault| Refusal { sheet: fault.sheet.min(1), ..fault })
}

fn exact_refused(joining: &Joining) -> Outcome {
    let answer = joining.right()?;
    insist(joining.room > answer.written.len(), 25)?;
    Ok(answer)
}

fn cut_to_fit(joining: &Joining) -> Outcome {
    let mut answer = join(&joining.first, &joining.second, MOST_OUTPUT)?;
    answer.written.truncate(joining.room);
    Ok(answer)
}
