//! A listing: the sheet of one office as a text that people can type, one row a
//! line, and back. The refusals come in the order of request 2026-01: line by line,
//! then the ends without a node, the limits and the room.

use std::collections::BTreeSet;

use crate::model::answer::{fitting, insist, sound, Answer, Refusal};
use crate::model::contents::{Contents, Identity, Link};
use crate::model::join::one_office;
use crate::model::limits::{Form, MOST_NODES};
use crate::model::sheet::*;

/// What a line names.
#[derive(Clone, Copy, Debug, PartialEq, Eq, PartialOrd, Ord)]
pub enum Entry {
    Node(Identity),
    Edge(Link),
}

/// The word of a line, the kind of its edge, if it is one, and the types that the
/// names after it have.
pub struct Word {
    pub word: &'static str,
    pub kind: Option<u32>,
    pub sorts: &'static [u32],
}

const fn node(word: &'static str, sorts: &'static [u32]) -> Word {
    Word { word, kind: None, sorts }
}

const fn edge(word: &'static str, kind: u32, sorts: &'static [u32]) -> Word {
    Word { word, kind: Some(kind), sorts }
}

/// The nine lines.
pub const WORDS: [Word; 9] = [
    node("person", &[PERSON]),
    node("category", &[CATEGORY]),
    node("deed", &[DEED]),
    node("folio", &[FOLIO]),
    edge("in", MEMBER, &[PERSON, CATEGORY]),
    edge("within", CONTAINED, &[CATEGORY, CATEGORY]),
    edge("grant", GRANT, &[CATEGORY, DEED]),
    edge("ban", BAN, &[CATEGORY, DEED]),
    edge("applies", APPLIES, &[DEED, FOLIO]),
];

/// A node's type, number and, of a deed, variant, as they are typed.
pub struct Name<'a> {
    pub sort: u32,
    pub number: &'a [u8],
    pub variant: Option<&'a [u8]>,
}

/// A line that is one of the nine, whatever its numbers are.
pub struct Shape<'a> {
    pub word: &'static Word,
    pub names: Vec<Name<'a>>,
}

/// Each with its line feed; the last may lack it.
pub fn lines(text: &[u8]) -> impl Iterator<Item = &[u8]> {
    text.split_inclusive(|&byte| byte == b'\n')
}

/// Nothing where the line is not one of the nine, or lacks its line feed.
pub fn shape(line: &[u8]) -> Option<Shape<'_>> {
    let mut parts = line.strip_suffix(b"\n")?.split(|&byte| byte == b' ');
    let first = parts.next()?;
    let word = WORDS.iter().find(|word| word.word.as_bytes() == first)?;
    let typed: Vec<&[u8]> = parts.collect();
    if typed.len() != word.sorts.len() {
        return None;
    }
    let names = word.sorts.iter().zip(typed).map(|(&sort, typed)| name(sort, typed));
    Some(Shape { word, names: names.collect::<Option<_>>()? })
}

/// A deed has a variant after its number, and no other node has one.
fn name(sort: u32, typed: &[u8]) -> Option<Name<'_>> {
    if sort != DEED {
        return digits(typed).then_some(Name { sort, number: typed, variant: None });
    }
    let slash = typed.iter().position(|&byte| byte == b'/')?;
    let (number, variant) = (&typed[..slash], &typed[slash + 1..]);
    let right = digits(number) && digits(variant);
    right.then_some(Name { sort, number, variant: Some(variant) })
}

fn digits(typed: &[u8]) -> bool {
    !typed.is_empty() && typed.iter().all(u8::is_ascii_digit)
}

/// Nothing where one of its numbers is 0 and no variant, has a leading zero, or is
/// no word.
pub fn entry(shape: &Shape) -> Option<Entry> {
    let names = shape.names.iter().map(identity).collect::<Option<Vec<Identity>>>()?;
    match shape.word.kind {
        None => Some(Entry::Node(names[0])),
        Some(kind) => Some(Entry::Edge((kind, names[0], names[1]))),
    }
}

fn identity(name: &Name) -> Option<Identity> {
    let variant = name.variant.map_or(Some(0), value)?;
    let number = value(name.number).filter(|&number| number != 0)?;
    Some((name.sort, number, variant))
}

/// Of digits: the number itself, where it is typed as a number is.
pub fn value(digits: &[u8]) -> Option<u32> {
    if digits.len() > 1 && digits[0] == b'0' {
        return None;
    }
    std::str::from_utf8(digits).ok()?.parse().ok()
}

/// The line's own faults, in their order: 40, 41, 42, 14.
pub fn line_entry(line: &[u8], before: &BTreeSet<Entry>) -> Result<Entry, u32> {
    let shape = shape(line).ok_or(40u32)?;
    let entry = entry(&shape).ok_or(41u32)?;
    match entry {
        _ if before.contains(&entry) => Err(42),
        Entry::Edge((CONTAINED, from, to)) if from == to => Err(14),
        _ => Ok(entry),
    }
}

/// Of all lines, in their order. The first line that has a fault decides.
pub fn entries(text: &[u8]) -> Result<Vec<Entry>, Refusal> {
    let (mut all, mut before) = (Vec::new(), BTreeSet::new());
    for (at, line) in lines(text).enumerate() {
        let entry = line_entry(line, &before).map_err(|number| at_line(number, at))?;
        all.push(entry);
        before.insert(entry);
    }
    Ok(all)
}

/// Lines are counted from 0, and the sheet's part of the place is 0.
pub fn at_line(number: u32, line: usize) -> Refusal {
    Refusal { number, sheet: 0, row: line as u32 }
}

/// 43: the first edge line with an end that no line of the text names as a node.
pub fn ends_stand(entries: &[Entry]) -> Result<(), Refusal> {
    let nodes: BTreeSet<Identity> = nodes_of(entries).collect();
    let lacks = |entry: &Entry| match entry {
        Entry::Node(_) => false,
        Entry::Edge((_, from, to)) => !nodes.contains(from) || !nodes.contains(to),
    };
    match entries.iter().position(lacks) {
        Some(line) => Err(at_line(43, line)),
        None => Ok(()),
    }
}

fn nodes_of(entries: &[Entry]) -> impl Iterator<Item = Identity> + '_ {
    entries.iter().filter_map(|entry| match entry {
        Entry::Node(identity) => Some(*identity),
        Entry::Edge(_) => None,
    })
}

fn links_of(entries: &[Entry]) -> impl Iterator<Item = Link> + '_ {
    entries.iter().filter_map(|entry| match entry {
        Entry::Node(_) => None,
        Entry::Edge(link) => Some(*link),
    })
}

/// Every row of the one office.
pub fn gathered(entries: &[Entry]) -> Contents {
    Contents {
        nodes: nodes_of(entries).map(|node| (node, 1)).collect(),
        edges: links_of(entries).map(|link| (link, 1)).collect(),
    }
}

/// 4: the limits of a sheet of form 1.
pub fn within_limits(contents: &Contents) -> Result<(), Refusal> {
    let few_nodes = contents.nodes.len() <= MOST_NODES;
    insist(few_nodes && contents.edges.len() <= Form::One.most_edges(), 4)
}

/// With room for so many words.
pub fn read(text: &[u8], room: usize) -> Result<Answer, Refusal> {
    let entries = entries(text)?;
    ends_stand(&entries)?;
    let contents = gathered(&entries);
    within_limits(&contents)?;
    fitting(contents.words(1), room)
}

/// With room for so many bytes.
pub fn write(words: &[u32], room: usize) -> Result<Vec<u8>, Refusal> {
    sound(words, 1)?;
    one_office(words, 1)?;
    let text = typed(words);
    insist(room >= text.len(), 25)?;
    Ok(text)
}

/// Of an accepted sheet: its nodes and then its edges, in the order of its rows.
pub fn typed(words: &[u32]) -> Vec<u8> {
    let nodes = node_rows(words);
    let name = |row: u32| match nodes[row as usize] {
        [DEED, number, variant, _] => format!("{number}/{variant}"),
        [_, number, ..] => number.to_string(),
    };
    let mut text = String::new();
    for (row, node) in (0..).zip(&nodes) {
        let word = WORDS.iter().find(|word| word.kind.is_none() && word.sorts == [node[0]]);
        text += &format!("{} {}\n", called(word), name(row));
    }
    for edge in edge_rows(words) {
        let word = WORDS.iter().find(|word| word.kind == Some(edge[0]));
        text += &format!("{} {} {}\n", called(word), name(edge[1]), name(edge[2]));
    }
    text.into_bytes()
}

fn called(word: Option<&'static Word>) -> &'static str {
    word.expect("every type and kind of a sheet has its word").word
}
