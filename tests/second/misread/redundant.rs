//! Wrong versions of question 10.

use std::collections::BTreeSet;

use crate::misread::surveys::Asking;
use crate::misread::{wrong, Misreading, Outcome};
use crate::model::office::{Office, Side};
use crate::model::reach::Reach;
use crate::model::redundant::{bypassed, edges_at, is_redundant, redundant_rows, Edge};
use crate::model::sheet::*;
use crate::model::survey::fitted;

#[rustfmt::skip]
pub fn all() -> Vec<Misreading<Asking>> {
    vec![
        wrong("a ring is a path beside its own step", &[10], ring_through_itself),
        wrong("paths of two containments alone", &[10], two_steps_alone),
        wrong("a containment is never redundant", &[10], |a| skipping(a, CONTAINED)),
        wrong("a member is never redundant", &[10], |a| skipping(a, MEMBER)),
        wrong("a grant is never redundant", &[10], |a| skipping(a, GRANT)),
        wrong("a ban is never redundant", &[10], |a| skipping(a, BAN)),
        wrong("the own category counts in a ring", &[10], own_category),
        wrong("members by a containing category", &[10], |a| members(a, is_containing)),
        wrong("the old rule for members everywhere", &[10], |a| members(a, is_contained)),
        wrong("the new rule for members everywhere", &[10], |a| members(a, is_between)),
        wrong("another office's ban row counts", &[10], bans_of_any_office),
        wrong("a ban row counts if a path uses it", &[10], bans_with_a_path),
        wrong("a ban row counts for whom it reaches", &[10], bans_that_reach),
        wrong("beside bans, contained twice", &[10], |a| beside_bans(a, is_contained_twice)),
        wrong("beside bans, contained or containing", &[10], |a| beside_bans(a, is_beside)),
        wrong("beside bans, containing alone", &[10], |a| beside_bans(a, is_containing)),
        wrong("beside bans, the own one contained", &[10], |a| beside_bans(a, own_contained)),
        wrong("beside bans, the own one containing", &[10], |a| beside_bans(a, own_containing)),
        wrong("beside bans, never one for both", &[10], |a| beside_bans(a, is_between_two)),
        wrong("bans by a containing category", &[10], bans_upwards),
        wrong("grants by a contained category", &[10], grants_downwards),
        wrong("rights on any variant of the deed", &[10], any_variant),
        wrong("one of two equal members is kept", &[10], one_is_kept),
        wrong("any person's member edge counts", &[10], any_person),
        wrong("a second variant on a folio is redundant", &[10], applies_listed),
        wrong("paths that change office", &[10], stitched_paths),
        wrong("rows of the other office too", &[10], rows_of_both),
        wrong("rows counted at the office alone", &[10], rows_of_office),
    ]
}

/// The rows for which it holds, at the office asked.
fn rows(asking: &Asking, holds: impl Fn(u32, &Edge) -> bool) -> Outcome {
    let edges = edges_at(&asking.words, asking.numbers[0]);
    let listed = edges.iter().filter(|(row, edge)| holds(*row, edge));
    fitted(Some(listed.map(|(row, _)| *row).collect()), asking.room)
}

/// Right but for the containments, which are given.
fn with_bypassed(asking: &Asking, beside: impl Fn(&Reach, u32, u32) -> bool) -> Outcome {
    let office = asking.office();
    let reach = Reach::of(&office);
    let mut given = office.contained.clone();
    given.retain(|&(low, high)| beside(&reach, low, high));
    rows(asking, |_, edge| is_redundant(&reach, &given, edge))
}

fn next(office: &Office, low: u32) -> Vec<u32> {
    office.contained.range((low, 0)..=(low, u32::MAX)).map(|pair| pair.1).collect()
}

fn ring_through_itself(asking: &Asking) -> Outcome {
    with_bypassed(asking, |reach, low, high| {
        let mut others = next(reach.office, low).into_iter().filter(|&first| first != high);
        others.any(|first| reach.leads(Side::Grant, first, high))
    })
}

fn two_steps_alone(asking: &Asking) -> Outcome {
    with_bypassed(asking, |reach, low, high| {
        next(reach.office, low).iter().any(|&first| reach.office.contained.contains(&(first, high)))
    })
}

/// Right but for what is said of one edge more or less.
fn changed(asking: &Asking, change: impl Fn(&Reach, &Edge, bool) -> bool) -> Outcome {
    let office = asking.office();
    let (reach, beside) = (Reach::of(&office), bypassed(&office));
    rows(asking, |_, edge| change(&reach, edge, is_redundant(&reach, &beside, edge)))
}

fn skipping(asking: &Asking, kind: u32) -> Outcome {
    changed(asking, |_, edge, right| right && edge.0 != kind)
}

fn own_category(asking: &Asking) -> Outcome {
    changed(asking, |reach, &(kind, from, to), right| match kind {
        MEMBER => right || reach.on_ring(to.0),
        GRANT | BAN => right || reach.on_ring(from.0),
        _ => right,
    })
}

/// A member edge: which other categories of the person are contained in this one, and
/// which contain it; whether this one is on a ring; whether the office has a ban row.
struct Membership {
    person: u32,
    contained: Vec<u32>,
    containing: Vec<u32>,
    on_ring: bool,
    bans: bool,
}

impl Membership {
    fn of(reach: &Reach, person: u32, category: u32) -> Membership {
        let others = || reach.own(person).filter(|&other| other != category);
        Membership {
            person,
            contained: others()
                .filter(|&other| reach.leads(Side::Grant, other, category))
                .collect(),
            containing: others()
                .filter(|&other| reach.leads(Side::Grant, category, other))
                .collect(),
            on_ring: reach.on_ring(category),
            bans: !reach.office.ban.is_empty(),
        }
    }
}

fn is_contained(member: &Membership) -> bool {
    !member.contained.is_empty()
}

fn is_contained_twice(member: &Membership) -> bool {
    member.contained.len() > 1
}

fn is_containing(member: &Membership) -> bool {
    !member.containing.is_empty()
}

fn is_between(member: &Membership) -> bool {
    is_contained(member) && is_containing(member)
}

fn is_beside(member: &Membership) -> bool {
    is_contained(member) || is_containing(member)
}

fn is_between_two(member: &Membership) -> bool {
    let other = |low: &u32| member.containing.iter().any(|high| high != low);
    member.contained.iter().any(other)
}

fn own_contained(member: &Membership) -> bool {
    (member.on_ring || is_contained(member)) && is_containing(member)
}

fn own_containing(member: &Membership) -> bool {
    is_contained(member) && (member.on_ring || is_containing(member))
}

/// Right but for the members.
fn members(asking: &Asking, holds: impl Fn(&Membership) -> bool) -> Outcome {
    changed(asking, |reach, &(kind, from, to), right| match kind {
        MEMBER => holds(&Membership::of(reach, from.0, to.0)),
        _ => right,
    })
}

/// Right but for the members of an office that has a ban row.
fn beside_bans(asking: &Asking, holds: impl Fn(&Membership) -> bool) -> Outcome {
    members(asking, |member| if member.bans { holds(member) } else { is_contained(member) })
}

/// Right but for what an office with a ban row is.
fn with_bans(asking: &Asking, bans: impl Fn(&Membership) -> bool) -> Outcome {
    members(asking, |member| is_contained(member) && (is_containing(member) || !bans(member)))
}

fn bans_of_any_office(asking: &Asking) -> Outcome {
    let bans = !Office::stitched(&asking.words).ban.is_empty();
    with_bans(asking, |_| bans)
}

fn bans_with_a_path(asking: &Asking) -> Outcome {
    let office = asking.office();
    let reach = Reach::of(&office);
    let used = office.persons.iter().any(|&person| !reach.pairs(Side::Ban, person).is_empty());
    with_bans(asking, |_| used)
}

fn bans_that_reach(asking: &Asking) -> Outcome {
    let office = asking.office();
    let reach = Reach::of(&office);
    with_bans(asking, |member| !reach.pairs(Side::Ban, member.person).is_empty())
}

/// Another category on the way of the given side has the right.
fn right_along(reach: &Reach, way: Side, edge: &Edge) -> bool {
    let &(kind, from, to) = edge;
    let side = if kind == GRANT { Side::Grant } else { Side::Ban };
    let rights = reach.office.rights(side).iter();
    let mut others = rights.filter(|pair| pair.1 == to && pair.0 != from.0);
    others.any(|pair| reach.leads(way, from.0, pair.0))
}

fn bans_upwards(asking: &Asking) -> Outcome {
    changed(asking, |reach, edge, right| match edge.0 {
        BAN => right_along(reach, Side::Grant, edge),
        _ => right,
    })
}

fn grants_downwards(asking: &Asking) -> Outcome {
    changed(asking, |reach, edge, right| match edge.0 {
        GRANT => right_along(reach, Side::Ban, edge),
        _ => right,
    })
}

fn any_variant(asking: &Asking) -> Outcome {
    let office = asking.office().fused();
    let (reach, beside) = (Reach::of(&office), bypassed(&office));
    rows(asking, |_, &(kind, from, to)| {
        let to = if kind == GRANT || kind == BAN { (to.0, 0) } else { to };
        is_redundant(&reach, &beside, &(kind, from, to))
    })
}

/// Of two edges that make each other redundant the first is not listed.
fn one_is_kept(asking: &Asking) -> Outcome {
    changed(asking, |reach, &(kind, from, to), right| match kind {
        MEMBER => {
            let equal = |other: u32| {
                reach.leads(Side::Grant, to.0, other) && reach.leads(Side::Grant, other, to.0)
            };
            let least = reach.own(from.0).filter(|&other| equal(other)).min();
            right && (least != Some(to.0) || !reach.on_ring(to.0))
        }
        _ => right,
    })
}

fn any_person(asking: &Asking) -> Outcome {
    changed(asking, |reach, &(kind, _, to), right| match kind {
        MEMBER => {
            let others = || reach.office.member.iter().filter(|pair| pair.1 != to.0);
            let contained = others().any(|pair| reach.leads(Side::Grant, pair.1, to.0));
            let containing = others().any(|pair| reach.leads(Side::Grant, to.0, pair.1));
            contained && (containing || reach.office.ban.is_empty())
        }
        _ => right,
    })
}

fn applies_listed(asking: &Asking) -> Outcome {
    changed(asking, |reach, &(kind, from, to), right| match kind {
        APPLIES => {
            let mut others = reach.office.applies.iter().filter(|pair| pair.0 != from);
            others.any(|&(deed, folio)| deed.0 == from.0 && folio == to.0)
        }
        _ => right,
    })
}

fn stitched_paths(asking: &Asking) -> Outcome {
    let office = Office::stitched(&asking.words);
    let (reach, beside) = (Reach::of(&office), bypassed(&office));
    rows(asking, |_, edge| is_redundant(&reach, &beside, edge))
}

fn rows_of_both(asking: &Asking) -> Outcome {
    let mut all = BTreeSet::new();
    for office in 1..=office_count(&asking.words) {
        all.extend(redundant_rows(&asking.words, office));
    }
    fitted(Some(all.into_iter().collect()), asking.room)
}

/// As if the other office's rows had been taken out first.
fn rows_of_office(asking: &Asking) -> Outcome {
    let office = asking.office();
    let (reach, beside) = (Reach::of(&office), bypassed(&office));
    let edges = edges_at(&asking.words, asking.numbers[0]);
    let listed = (0..).zip(&edges).filter(|(_, (_, edge))| is_redundant(&reach, &beside, edge));
    fitted(Some(listed.map(|(at, _)| at).collect()), asking.room)
}
