//! Lines as somebody types them: the nine patterns with numbers in their places,
//! spelt in any way, and the lines of a sheet in any order. The model has its own
//! table of the nine, so that a slip in one shows.

use std::collections::BTreeSet;

use crate::generate::outline::Outline;
use crate::generate::random::Random;
use crate::model::contents::{Identity, Link};
use crate::model::sheet::*;

/// A number stands at each `#`.
pub const PATTERNS: [&str; 9] = [
    "person #",
    "category #",
    "deed #/#",
    "folio #",
    "in # #",
    "within # #",
    "grant # #/#",
    "ban # #/#",
    "applies #/# #",
];

/// The patterns of edges come after those of nodes.
pub const FIRST_EDGE: usize = 4;
pub const WITHIN: usize = 5;

/// How many numbers a line of this pattern has.
pub fn places(pattern: usize) -> usize {
    PATTERNS[pattern].matches('#').count()
}

/// Whether the number at this place is a deed's variant.
pub fn is_variant(pattern: usize, place: usize) -> bool {
    let before = PATTERNS[pattern].split('#').nth(place);
    before.is_some_and(|before| before.ends_with('/'))
}

/// A line: its pattern, and the numbers as they are typed.
#[derive(Clone, Debug, PartialEq, Eq, PartialOrd, Ord)]
pub struct Typed {
    pub pattern: usize,
    pub numbers: Vec<String>,
}

impl Typed {
    pub fn new(pattern: usize, numbers: &[u32]) -> Typed {
        Typed { pattern, numbers: numbers.iter().map(u32::to_string).collect() }
    }

    pub fn node((sort, number, variant): Identity) -> Typed {
        let numbers = [number, variant];
        let count = if sort == DEED { 2 } else { 1 };
        Typed::new(sort as usize - 1, &numbers[..count])
    }

    pub fn link((kind, from, to): Link) -> Typed {
        let mut numbers = Vec::new();
        for (sort, number, variant) in [from, to] {
            numbers.push(number);
            numbers.extend((sort == DEED).then_some(variant));
        }
        Typed::new(FIRST_EDGE + kind as usize - 1, &numbers)
    }

    pub fn line(&self) -> Vec<u8> {
        let mut line = String::new();
        for (at, part) in PATTERNS[self.pattern].split('#').enumerate() {
            line += part;
            line += self.numbers.get(at).map_or("", String::as_str);
        }
        line.push('\n');
        line.into_bytes()
    }

    /// With another number at this place.
    pub fn respelt(&self, place: usize, number: &str) -> Typed {
        let mut other = self.clone();
        other.numbers[place] = number.to_string();
        other
    }

    /// The node lines that an edge line needs; none for a node line.
    pub fn ends(&self) -> Vec<Typed> {
        let mut names: Vec<Vec<String>> = Vec::new();
        for (place, number) in self.numbers.iter().enumerate() {
            match names.last_mut() {
                Some(name) if is_variant(self.pattern, place) => name.push(number.clone()),
                _ => names.push(vec![number.clone()]),
            }
        }
        let kind = (self.pattern + 1).saturating_sub(FIRST_EDGE) as u32;
        let Some((from, to)) = end_types(kind) else {
            return Vec::new();
        };
        let node = |(sort, numbers)| Typed { pattern: sort as usize - 1, numbers };
        [from, to].into_iter().zip(names).map(node).collect()
    }
}

/// Its nodes and then its edges, in the order of a sheet.
pub fn typed(outline: &Outline) -> Vec<Typed> {
    let nodes = outline.nodes.iter().map(|&node| Typed::node(node));
    nodes.chain(outline.links.iter().map(|&link| Typed::link(link))).collect()
}

/// In which order the lines come.
pub fn any_order(random: &mut Random, lines: &mut [Typed]) {
    match random.below(8) {
        0 => {}
        1 => lines.reverse(),
        2 => lines.sort_by_key(|line| line.pattern < FIRST_EDGE),
        3 => {
            let at = random.below(lines.len() + 1);
            lines.rotate_left(at);
        }
        _ => random.shuffle(lines),
    }
}

pub fn text(lines: &[Typed]) -> Vec<u8> {
    lines.iter().flat_map(Typed::line).collect()
}

/// A line of this pattern, with small numbers that differ from one another.
pub fn sample(random: &mut Random, pattern: usize) -> Typed {
    let mut numbers: Vec<u32> = (5..=9).collect();
    random.shuffle(&mut numbers);
    Typed::new(pattern, &numbers[..places(pattern)])
}

/// Numbers that are no number of a listing, wherever they stand.
pub fn bad_number(random: &mut Random) -> String {
    match random.below(12) {
        0 => "00".to_string(),
        1 => format!("0{}", random.between(1, 9)),
        2 => format!("0{}", random.word()),
        3 => "0".repeat(random.between(2, 12)) + "1",
        4 => "4294967296".to_string(),
        5 => (u64::from(u32::MAX) + 1 + random.below(1 << 20) as u64).to_string(),
        6 => (random.between(1, 9) as u64 * (1 << 32) + random.below(99) as u64).to_string(),
        7 => (u128::from(u64::MAX) + 1 + random.below(99) as u128).to_string(),
        8 => long_number(random, 11),
        9 => long_number(random, 20),
        10 => long_number(random, 40),
        _ => long_number(random, 1_000),
    }
}

/// Of so many digits, and the first is not 0.
pub fn long_number(random: &mut Random, digits: usize) -> String {
    let mut number = random.between(1, 9).to_string();
    number.extend((1..digits).map(|_| (b'0' + random.below(10) as u8) as char));
    number
}

/// So many nodes and so many edges between them, by identities: at least 64 nodes
/// where there are many edges. The lines are shorter where the numbers are.
pub fn crowd(random: &mut Random, nodes: usize, edges: usize) -> Outline {
    let base = random.pick(&[0, 5_000, u32::MAX - 2_000]);
    let mut outline = Outline::default();
    let categories = nodes.min(64);
    for at in 0..nodes as u32 {
        let sort = match at as usize {
            at if at < categories => CATEGORY,
            at => [PERSON, DEED, FOLIO, PERSON][at % 4],
        };
        let variant = if sort == DEED { random.pick(&[0, 1, at, u32::MAX - at]) } else { 0 };
        outline.nodes.insert((sort, base + 1 + at, variant));
    }
    let by_type: Vec<Vec<Identity>> = (PERSON..=FOLIO)
        .map(|sort| outline.nodes.iter().copied().filter(|node| node.0 == sort).collect())
        .collect();
    while outline.links.len() < edges {
        let kind = random.between(MEMBER as usize, APPLIES as usize) as u32;
        outline.links.extend(link(random, &by_type, kind));
    }
    outline
}

fn link(random: &mut Random, by_type: &[Vec<Identity>], kind: u32) -> Option<Link> {
    let (from, to) = end_types(kind)?;
    let [from, to] = [from, to].map(|sort| &by_type[sort as usize - 1]);
    if from.is_empty() || to.is_empty() {
        return None;
    }
    let (from, to) = (random.pick(from), random.pick(to));
    (from != to).then_some((kind, from, to))
}

/// Ten thousand lines and some more, far more than a sheet has rows: nodes alone,
/// or edges between a few nodes.
pub fn throng(random: &mut Random, of_edges: bool) -> Vec<Typed> {
    let numbers = |count: u32| 1..=count;
    let mut lines: BTreeSet<Typed> = BTreeSet::new();
    if of_edges {
        for person in numbers(101) {
            lines.insert(Typed::new(0, &[person]));
            lines.insert(Typed::new(1, &[person]));
            lines.extend(numbers(100).map(|category| Typed::new(4, &[person, category])));
        }
    } else {
        lines.extend(numbers(5_002).map(|number| Typed::new(0, &[number])));
        lines.extend(numbers(5_002).map(|number| Typed::new(3, &[number])));
    }
    let mut lines: Vec<Typed> = lines.into_iter().collect();
    random.shuffle(&mut lines);
    lines
}
