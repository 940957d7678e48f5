//! Lists for question 4: paths, nearly paths, and anything else. What each of
//! them is worth is for the answering side to say.

use crate::generate::random::Random;
use crate::model::closure::witness;
use crate::model::limits::WORD;
use crate::model::office::{Ask, Deed, Office, Side};
use crate::trial::request::MOST_PAYLOAD;

/// The words of the longest list a request can carry.
pub const MOST_LIST: usize = MOST_PAYLOAD / WORD;

pub type Path = Vec<(u32, u32)>;

pub fn words(path: &[(u32, u32)]) -> Vec<u32> {
    path.iter().flat_map(|node| [node.0, node.1]).collect()
}

pub fn path_ask(path: &[(u32, u32)]) -> Ask {
    let end = path.len();
    Ask { person: path[0].0, deed: path[end - 2].0, folio: path[end - 1].0 }
}

/// Some path of this office and side, rarely the shortest.
pub fn stroll(random: &mut Random, office: &Office, side: Side) -> Option<Path> {
    (0..6).find_map(|_| one_stroll(random, office, side, false))
}

/// A walk that may come back to a category where it has been, and then does:
/// everything about it is right but that.
fn circle(random: &mut Random, office: &Office, side: Side) -> Option<Path> {
    (0..6).find_map(|_| one_stroll(random, office, side, true))
}

fn one_stroll(random: &mut Random, office: &Office, side: Side, again: bool) -> Option<Path> {
    let members: Vec<(u32, u32)> = office.member.iter().copied().collect();
    let steps = office.all_steps(side);
    let (person, mut here) = one_of(random, members)?;
    let mut path = vec![(person, 0), (here, 0)];
    for _ in 0..40 {
        let ends = endings(office, side, here);
        let ahead = steps.iter().filter(|step| step.0 == here);
        let fresh = ahead.filter(|step| again || !path.contains(&(step.1, 0)));
        let next = one_of(random, fresh.map(|step| step.1).collect());
        if let (true, Some((deed, folio))) =
            (next.is_none() || random.one_in(3), one_of(random, ends))
        {
            path.extend([deed, (folio, 0)]);
            return Some(path);
        }
        here = next?;
        path.push((here, 0));
    }
    None
}

fn endings(office: &Office, side: Side, category: u32) -> Vec<(Deed, u32)> {
    let granted = |deed: Deed| office.rights(side).contains(&(category, deed));
    office.applies.iter().copied().filter(|pair| granted(pair.0)).collect()
}

fn one_of<T: Copy>(random: &mut Random, from: Vec<T>) -> Option<T> {
    (!from.is_empty()).then(|| random.pick(&from))
}

/// What a list is made from: the office and side asked, the triple asked, and
/// what another would take for the office's path.
pub struct Shelf<'a> {
    pub here: &'a Office,
    pub elsewhere: &'a [Office],
    pub side: Side,
    pub ask: Ask,
}

pub fn any_list(random: &mut Random, shelf: &Shelf) -> Vec<u32> {
    let whole = whole_path(random, shelf);
    match random.below(16) {
        0..=3 => words(&whole),
        4 => words(&of_another(random, shelf).unwrap_or(whole)),
        5 => words(&stroll(random, shelf.here, shelf.side.other()).unwrap_or(whole)),
        6 => words(&circle(random, shelf.here, shelf.side).unwrap_or(whole)),
        7 => cut(random, words(&whole)),
        8 | 9 => one_word_changed(random, shelf, words(&whole)),
        10 => rearranged(random, whole),
        11 => other_variant(random, shelf, whole),
        12 => longer(random, words(&whole)),
        13 => other_ends(random, shelf, whole),
        14 => loose_words(random, shelf),
        _ => known_nodes(random, shelf),
    }
}

/// The witness of what is asked, or a stroll that may well answer another
/// question.
fn whole_path(random: &mut Random, shelf: &Shelf) -> Path {
    let shortest = witness(shelf.here, shelf.side, &shelf.ask);
    if let (Some(path), true) = (&shortest, random.one_in(3)) {
        return path.clone();
    }
    let strolls: Vec<Path> =
        (0..6).filter_map(|_| stroll(random, shelf.here, shelf.side)).collect();
    let fitting = strolls.iter().filter(|path| path_ask(path) == shelf.ask);
    let longest = fitting.max_by_key(|path| path.len());
    let any = longest.or(shortest.as_ref()).or(strolls.first());
    any.cloned().unwrap_or(vec![(shelf.ask.person, 0), (shelf.ask.deed, 0), (shelf.ask.folio, 0)])
}

/// Of the other office, or of both taken for one.
fn of_another(random: &mut Random, shelf: &Shelf) -> Option<Path> {
    let office = &shelf.elsewhere[random.below(shelf.elsewhere.len())];
    let shortest = witness(office, shelf.side, &shelf.ask);
    shortest.or_else(|| stroll(random, office, shelf.side))
}

fn cut(random: &mut Random, mut list: Vec<u32>) -> Vec<u32> {
    let some = random.pick(&[1, 2, 2, 3, 4, 4, 6, 99]).min(list.len());
    match random.below(3) {
        0 => list.truncate(list.len() - some),
        1 => drop(list.drain(..some)),
        _ => {
            let at = random.below(list.len() - some + 1);
            list.drain(at..at + some);
        }
    }
    list
}

fn one_word_changed(random: &mut Random, shelf: &Shelf, mut list: Vec<u32>) -> Vec<u32> {
    let at = random.below(list.len());
    list[at] = match random.below(7) {
        0 => list[at].wrapping_add(1),
        1 => list[at].wrapping_sub(1),
        2 => list[at] ^ 1 << random.below(32),
        3 => random.odd_word(),
        4 => list[random.below(list.len())],
        5 => one_of(random, shelf.here.deeds.iter().copied().collect()).map_or(0, |deed| deed.1),
        _ => one_of(random, shelf.here.categories.iter().copied().collect()).unwrap_or(1),
    };
    list
}

/// The right nodes, in a wrong order or once too often.
fn rearranged(random: &mut Random, mut path: Path) -> Vec<u32> {
    let (one, other) = (random.below(path.len()), random.below(path.len()));
    match random.below(4) {
        0 => path.swap(one, other),
        1 => path.reverse(),
        2 => path.insert(one, path[one]),
        _ => path.insert(other, path[one]),
    }
    words(&path)
}

fn other_variant(random: &mut Random, shelf: &Shelf, mut path: Path) -> Vec<u32> {
    let at = path.len() - 2;
    let alike = shelf.here.deeds.iter().copied().filter(|deed| deed.0 == path[at].0);
    if let Some(deed) = one_of(random, alike.collect()) {
        path[at] = deed;
    }
    words(&path)
}

fn longer(random: &mut Random, mut list: Vec<u32>) -> Vec<u32> {
    let more = random.pick(&[1, 1, 2, 3, 4, 60]);
    let at = if random.one_in(3) { 0 } else { list.len() };
    list.splice(at..at, (0..more).map(|_| random.odd_word()));
    list
}

/// A path all right, but of another person or to another folio.
fn other_ends(random: &mut Random, shelf: &Shelf, mut path: Path) -> Vec<u32> {
    let end = path.len() - 1;
    let (at, numbers) = match random.below(2) {
        0 => (0, &shelf.here.persons),
        _ => (end, &shelf.here.folios),
    };
    if let Some(number) = one_of(random, numbers.iter().copied().collect()) {
        path[at] = (number, 0);
    }
    words(&path)
}

fn loose_words(random: &mut Random, shelf: &Shelf) -> Vec<u32> {
    let length = random.pick(&[0, 0, 1, 2, 6, 7, 8, 9, 10, 12, 40]);
    let mut list: Vec<u32> = (0..length).map(|_| random.odd_word()).collect();
    if let Some(word) = list.first_mut() {
        *word = shelf.ask.person;
    }
    list
}

/// The ends asked, and known categories between them in any order.
fn known_nodes(random: &mut Random, shelf: &Shelf) -> Vec<u32> {
    let mut path = vec![(shelf.ask.person, 0)];
    for _ in 0..random.below(5) {
        let categories = shelf.here.categories.iter().copied().collect();
        path.extend(one_of(random, categories).map(|category| (category, 0)));
    }
    let deeds = shelf.here.deeds.iter().copied().filter(|deed| deed.0 == shelf.ask.deed);
    path.extend(one_of(random, deeds.collect()));
    path.push((shelf.ask.folio, 0));
    words(&path)
}

/// As many words as a request can carry: round and round a ring, or nothing
/// in particular, or a path at one end.
pub fn very_long(random: &mut Random, path: &[(u32, u32)]) -> Vec<u32> {
    let length = random.pick(&[MOST_LIST, MOST_LIST, MOST_LIST - 1, MOST_LIST / 2]);
    let categories = &path[1..path.len() - 2];
    let mut list = words(&path[..1]);
    match random.below(4) {
        0 => list.extend((0..length).map(|_| random.odd_word())),
        1 => list = words(path),
        _ => {
            let ring = words(categories);
            let round = (length - 6) / ring.len() * ring.len();
            list.extend(ring.iter().cycle().take(round));
            list.extend(words(&path[path.len() - 2..]));
            return list;
        }
    }
    list.resize(length, 0);
    list
}
