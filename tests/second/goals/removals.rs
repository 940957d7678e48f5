//! What must have been removed: by this program alone, where every answer is compared,
//! and of what the trial was asked.

use crate::model::office::Office;
use crate::model::removal::Removal;
use crate::model::sheet::*;

const KINDS: [(u32, &str); 4] =
    [(MEMBER, "member"), (CONTAINED, "containment"), (GRANT, "grant"), (BAN, "ban")];

pub fn needed() -> Vec<String> {
    let mut goals = Vec::new();
    for (_, kind) in KINDS {
        for gone in [true, false] {
            goals.extend(["compared", "asked"].map(|how| edge_goal(how, kind, gone)));
        }
    }
    goals.extend(["compared", "asked"].map(beside_bans));
    for office in 1..=2 {
        goals.extend((0..=3).map(|value| answer_goal(office, value)));
        goals.push(elsewhere_goal(office));
    }
    goals
}

fn edge_goal(how: &str, kind: &str, gone: bool) -> String {
    let what = if gone { "row" } else { "row's one mark of two" };
    format!("question 1: {how} without a {kind} {what}")
}

fn beside_bans(how: &str) -> String {
    format!("question 1: {how} without a member edge beside bans")
}

fn answer_goal(office: u32, value: u32) -> String {
    format!("question 1: answer {value} without an edge at office {office}")
}

fn elsewhere_goal(office: u32) -> String {
    format!("question 1: asked elsewhere without an edge at office {office}")
}

fn of_edge(how: &str, removal: &Removal) -> Vec<String> {
    let own = KINDS.iter().filter(|(kind, _)| *kind == removal.kind);
    let mut goals: Vec<String> = own.map(|(_, kind)| edge_goal(how, kind, removal.gone)).collect();
    let bans = !Office::of(&removal.rest, removal.office).ban.is_empty();
    goals.extend((bans && removal.kind == MEMBER).then(|| beside_bans(how)));
    goals
}

/// By a removal after which this program compared every answer.
pub fn compared(removal: &Removal) -> Vec<String> {
    of_edge("compared", removal)
}

/// By one after which question 1 was put to the trial at this office, whose answer had
/// been this.
pub fn asked(removal: &Removal, office: u32, value: u32) -> Vec<String> {
    let mut goals = of_edge("asked", removal);
    goals.push(match office == removal.office {
        true => answer_goal(office, value),
        false => elsewhere_goal(removal.office),
    });
    goals
}
