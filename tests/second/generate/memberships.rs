//! Small sheets for what question 10 says of members: persons who are in several
//! categories along a line or round a ring, at offices that have a ban row and at
//! offices that have none.

use crate::generate::marks::part_of;
use crate::generate::random::Random;
use crate::generate::scene::{Scene, OFFICE_COUNTS};
use crate::model::marks::all_marks;
use crate::model::office::Side;
use crate::model::sheet::Sheet;

pub fn small(random: &mut Random) -> Sheet {
    let office_count = random.pick(&OFFICE_COUNTS);
    let mut scene = Scene::new(random, office_count);
    let line = containments(random, &mut scene);
    members(random, &mut scene, &line);
    rights(random, &mut scene, &line);
    let all = all_marks(office_count);
    let banning = match random.below(4) {
        0 => 0,
        1 => all,
        _ => part_of(random, all, 0),
    };
    if banning != 0 {
        bans(random, &mut scene, &line, banning);
    }
    scene.draft.sheet(office_count)
}

/// A line, and as often as not a step back: it makes a ring of all of the line or of
/// a part, which may have a line into it and one out of it.
fn containments(random: &mut Random, scene: &mut Scene) -> Vec<u32> {
    let line = scene.some_categories(random, 2, 5);
    scene.line(random, Side::Grant, &line);
    if random.one_in(2) {
        let low = random.below(line.len() - 1);
        let high = random.between(low + 1, line.len() - 1);
        scene.step(random, Side::Grant, line[high], line[low]);
    }
    if random.one_in(3) {
        let (from, to) = (random.pick(&line), random.pick(&line));
        scene.step(random, Side::Grant, from, to);
    }
    line
}

/// One person or two, each in most of the categories.
fn members(random: &mut Random, scene: &mut Scene, line: &[u32]) {
    let count = random.between(1, 2);
    for person in scene.cast.persons[..count].to_vec() {
        for &category in line {
            if !random.one_in(3) {
                let offices = scene.mark(random);
                scene.draft.member(person, category, offices);
            }
        }
    }
}

/// Grants of one deed at several categories of the line.
fn rights(random: &mut Random, scene: &mut Scene, line: &[u32]) {
    let deed = scene.deed(random);
    for _ in 0..random.below(3) {
        let category = random.pick(line);
        scene.right(random, Side::Grant, category, deed);
    }
    scene.apply(random, deed);
}

/// Ban rows of these offices and of no other. Some of them no path uses: their
/// category is out of the way, or their deed has no folio.
fn bans(random: &mut Random, scene: &mut Scene, line: &[u32], offices: u32) {
    let deed = scene.deed(random);
    for _ in 0..random.between(1, 2) {
        let category = if random.one_in(4) { scene.category(random) } else { random.pick(line) };
        scene.draft.right(Side::Ban, category, deed, offices);
    }
    if !random.one_in(4) {
        let folio = random.pick(&scene.cast.folios);
        scene.draft.applies(deed, folio, offices);
    }
}
