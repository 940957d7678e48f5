//! Wrong versions of reading a listing: what they do after the last line. Those of
//! single lines stand in `lines`.

use std::collections::{BTreeMap, BTreeSet};

use crate::misread::{wrong, Asked, Misreading, Outcome};
use crate::model::answer::{fitting, insist, refusal, Refusal};
use crate::model::contents::Identity;
use crate::model::limits::{HEADER, MOST_BYTES, MOST_EDGES, MOST_NODES};
use crate::model::listing::*;
use crate::model::sheet::*;
use crate::trial::operation::READ_LISTING;
use crate::trial::request::{Request, MOST_OUTPUT};

pub struct Reading {
    pub text: Vec<u8>,
    room: usize,
}

type Wrong = Misreading<Reading>;

pub const fn listing(name: &'static str, read: fn(&Reading) -> Outcome) -> Wrong {
    wrong(name, &[READ_LISTING], read)
}

/// Told apart by small texts.
pub const WRONG: [Wrong; 16] = [
    listing("a node line has to come first", nodes_first),
    listing("43 by line", |it| ends_by_line(it, &[40, 41, 42, 14])),
    listing("43 before 42", |it| ends_by_line(it, &[42])),
    listing("43 before 14", |it| ends_by_line(it, &[14])),
    listing("43 for the first end alone", |it| one_end(it, 0)),
    listing("43 for the second end alone", |it| one_end(it, 1)),
    listing("43 by the number alone", |it| standing_as(it, |(_, number, _)| (0, number, 0))),
    listing("43 whatever the variant", |it| standing_as(it, |(sort, number, _)| (sort, number, 0))),
    listing("43 at the last such line", last_missing),
    listing("43 counts edge lines", among_edges),
    listing("an edge line is taken for its ends' node lines", edges_make_nodes),
    listing("25 before 43", |it| it.room_before(43)),
    listing("25 before the lines", |it| it.room_before(0)),
    listing("an exact room is too short", exact_refused),
    listing("what fits is written", cut_to_fit),
    listing("rows in the order of the lines", as_typed),
];

/// Told apart by texts at the limits and above.
pub const WRONG_AT_LIMITS: [Wrong; 9] = [
    listing("4 before 43", limits_before_ends),
    listing("4 at once", limits_at_once),
    listing("25 before 4", |it| it.room_before(4)),
    listing("the most nodes are too many", |it| limited(it, MOST_NODES - 1, MOST_EDGES)),
    listing("the most edges are too many", |it| limited(it, MOST_NODES, MOST_EDGES - 1)),
    listing("a node more is let by", |it| limited(it, MOST_NODES + 1, MOST_EDGES)),
    listing("an edge more is let by", |it| limited(it, MOST_NODES, MOST_EDGES + 1)),
    listing("a text is as long as a file at most", as_long_as_a_file),
    listing("rows beyond the limits are forgotten", forgotten),
];

impl Asked for Reading {
    fn of(request: &Request) -> Option<Reading> {
        let own = request.operation == READ_LISTING;
        own.then(|| Reading { text: request.first.clone(), room: request.out_len })
    }
}

impl Reading {
    pub fn right(&self) -> Outcome {
        read(&self.text, self.room)
    }

    /// The right reading, but of another text.
    pub fn instead(&self, change: impl Fn(&[u8]) -> Vec<u8>) -> Outcome {
        read(&change(&self.text), self.room)
    }

    /// Another reading of 40, 41 and 14; a repeated row is seen as it should be.
    pub fn by(&self, entry: impl Fn(&[u8]) -> Result<Entry, u32>) -> Outcome {
        self.remembering(|line, before| {
            let entry = entry(line)?;
            if before.contains(&entry) {
                return Err(42);
            }
            Ok(entry)
        })
    }

    /// Another reading of a number; the flag tells a variant.
    pub fn valued(&self, value: fn(&[u8], bool) -> Option<u32>) -> Outcome {
        self.by(|line| valued(line, value))
    }

    /// The right reading of other lines, one for each.
    pub fn mended(&self, mend: fn(&[u8]) -> Vec<u8>) -> Outcome {
        self.by(|line| own_line(&mend(line)))
    }

    /// Another reading of each line, behind those before it.
    pub fn remembering(&self, entry: impl Fn(&[u8], &[Entry]) -> Result<Entry, u32>) -> Outcome {
        let mut all = Vec::new();
        for (at, line) in lines(&self.text).enumerate() {
            let entry = entry(line, &all).map_err(|number| at_line(number, at))?;
            all.push(entry);
        }
        finished(&all, self.room)
    }

    /// Each phase goes over all lines and looks for its own numbers alone.
    pub fn in_phases(&self, phases: &[&[u32]]) -> Outcome {
        let faults: Vec<Option<u32>> = each_line(&self.text).into_iter().map(Result::err).collect();
        for phase in phases {
            let mut own = faults.iter().enumerate();
            if let Some((at, fault)) =
                own.find(|(_, fault)| fault.is_some_and(|it| phase.contains(&it)))
            {
                return Err(at_line(fault.unwrap_or(0), at));
            }
        }
        self.right()
    }

    pub fn placed(&self, change: impl Fn(Refusal) -> Refusal) -> Outcome {
        self.right().map_err(|refusal| match refusal.number {
            4 | 25 => refusal,
            _ => change(refusal),
        })
    }

    /// 25 where there is not room for the rows that the lines are, ahead of this
    /// number and those after it.
    pub fn room_before(&self, number: u32) -> Outcome {
        let rows = lines(&self.text).count();
        let short = self.room < HEADER + 4 * rows;
        match self.right() {
            Err(refusal) if short && (number == 0 || refusal.number == number) => {
                Err(Refusal { number: 25, sheet: 0, row: 0 })
            }
            outcome => outcome,
        }
    }
}

/// 43, 4 and 25.
fn finished(entries: &[Entry], room: usize) -> Outcome {
    ends_stand(entries)?;
    let contents = gathered(entries);
    within_limits(&contents)?;
    fitting(contents.words(1), room)
}

/// What each line is by itself, behind all good ones before it.
fn each_line(text: &[u8]) -> Vec<Result<Entry, u32>> {
    let mut before = BTreeSet::new();
    let own = |line| {
        let entry = line_entry(line, &before);
        before.extend(entry);
        entry
    };
    lines(text).map(own).collect()
}

/// 40, 41 and 14.
pub fn own_line(line: &[u8]) -> Result<Entry, u32> {
    line_entry(line, &BTreeSet::new())
}

/// With another reading of a number; the flag tells a variant.
fn valued(line: &[u8], value: impl Fn(&[u8], bool) -> Option<u32>) -> Result<Entry, u32> {
    let shape = shape(line).ok_or(40u32)?;
    let identity = |name: &Name| {
        let variant = name.variant.map_or(Some(0), |typed| value(typed, true))?;
        Some((name.sort, value(name.number, false)?, variant))
    };
    let names: Option<Vec<Identity>> = shape.names.iter().map(identity).collect();
    let names = names.ok_or(41u32)?;
    match shape.word.kind {
        None => Ok(Entry::Node(names[0])),
        Some(CONTAINED) if names[0] == names[1] => Err(14),
        Some(kind) => Ok(Entry::Edge((kind, names[0], names[1]))),
    }
}

/// Each end has to stand among the lines before.
fn nodes_first(reading: &Reading) -> Outcome {
    let entries = entries(&reading.text)?;
    for at in 0..entries.len() {
        ends_stand(&entries[..=at])?;
    }
    finished(&entries, reading.room)
}

fn nodes_alone(entries: impl Iterator<Item = Entry>) -> Vec<Entry> {
    entries.filter(|entry| matches!(entry, Entry::Node(_))).collect()
}

/// 43 where a line has it before one with a fault of these.
fn ends_by_line(reading: &Reading, faults_after: &[u32]) -> Outcome {
    let refused = reading.right();
    let (number, line) = match &refused {
        Err(refusal) => (refusal.number, refusal.row as usize),
        Ok(_) => (0, 0),
    };
    if !faults_after.contains(&number) {
        return refused;
    }
    let known = each_line(&reading.text);
    let nodes: Vec<Entry> = nodes_alone(known.iter().copied().flatten());
    let lacks = |entry: &Entry| ends_stand(&[&nodes[..], &[*entry]].concat()).is_err();
    let missing = known[..line].iter().position(|entry| entry.as_ref().is_ok_and(lacks));
    match missing {
        Some(line) => Err(at_line(43, line)),
        None => refused,
    }
}

/// The entries with every edge that an end fails left out, where this reader does
/// not see that it does.
fn sparing(reading: &Reading, seen: impl Fn(&Entry, &BTreeSet<Identity>) -> bool) -> Outcome {
    let entries = entries(&reading.text)?;
    let nodes: BTreeSet<Identity> = entries
        .iter()
        .filter_map(|entry| match entry {
            Entry::Node(node) => Some(*node),
            Entry::Edge(_) => None,
        })
        .collect();
    if let Some(line) = entries.iter().position(|entry| seen(entry, &nodes)) {
        return Err(at_line(43, line));
    }
    let stands = |entry: &&Entry| match entry {
        Entry::Node(_) => true,
        Entry::Edge((_, from, to)) => nodes.contains(from) && nodes.contains(to),
    };
    let kept: Vec<Entry> = entries.iter().filter(stands).copied().collect();
    finished(&kept, reading.room)
}

fn one_end(reading: &Reading, which: usize) -> Outcome {
    sparing(reading, |entry, nodes| match entry {
        Entry::Node(_) => false,
        Entry::Edge((_, from, to)) => !nodes.contains(&[*from, *to][which]),
    })
}

fn standing_as(reading: &Reading, named: impl Fn(Identity) -> Identity) -> Outcome {
    sparing(reading, |entry, nodes| match entry {
        Entry::Node(_) => false,
        Entry::Edge((_, from, to)) => {
            let stands = |end: Identity| nodes.iter().any(|&node| named(node) == named(end));
            !stands(*from) || !stands(*to)
        }
    })
}

fn last_missing(reading: &Reading) -> Outcome {
    match reading.right() {
        Err(Refusal { number: 43, .. }) => {
            let entries = entries(&reading.text)?;
            let nodes = nodes_alone(entries.iter().copied());
            let lacks = |entry: &Entry| ends_stand(&[&nodes[..], &[*entry]].concat()).is_err();
            Err(at_line(43, entries.iter().rposition(lacks).unwrap_or(0)))
        }
        outcome => outcome,
    }
}

fn among_edges(reading: &Reading) -> Outcome {
    let entries = entries(&reading.text)?;
    reading.right().map_err(|refusal| match refusal.number {
        43 => {
            let before = entries[..refusal.row as usize].iter();
            at_line(43, before.filter(|entry| matches!(entry, Entry::Edge(_))).count())
        }
        _ => refusal,
    })
}

fn edges_make_nodes(reading: &Reading) -> Outcome {
    let mut entries = entries(&reading.text)?;
    for entry in entries.clone() {
        if let Entry::Edge((_, from, to)) = entry {
            entries.extend([from, to].map(Entry::Node));
        }
    }
    finished(&entries, reading.room)
}

fn exact_refused(reading: &Reading) -> Outcome {
    let answer = reading.right()?;
    insist(reading.room > answer.written.len(), 25)?;
    Ok(answer)
}

fn cut_to_fit(reading: &Reading) -> Outcome {
    let mut answer = read(&reading.text, MOST_OUTPUT)?;
    answer.written.truncate(reading.room);
    Ok(answer)
}

/// Each table as its lines come, and not sorted.
fn as_typed(reading: &Reading) -> Outcome {
    reading.right()?;
    let entries = entries(&reading.text)?;
    let (mut nodes, mut edges) = (Vec::new(), Vec::new());
    let mut rows: BTreeMap<Identity, u32> = BTreeMap::new();
    for entry in &entries {
        if let Entry::Node(node) = *entry {
            rows.insert(node, nodes.len() as u32);
            nodes.push([node.0, node.1, node.2, 1]);
        }
    }
    for entry in &entries {
        if let Entry::Edge((kind, from, to)) = entry {
            edges.push([*kind, rows[from], rows[to], 1]);
        }
    }
    fitting(Sheet { office_count: 1, nodes, edges }.words(), reading.room)
}

fn limits_before_ends(reading: &Reading) -> Outcome {
    let entries = entries(&reading.text)?;
    within_limits(&gathered(&entries))?;
    finished(&entries, reading.room)
}

/// How many nodes and edges there are, once this one has come.
fn counted([nodes, edges]: [usize; 2], entry: &Entry) -> [usize; 2] {
    match entry {
        Entry::Node(_) => [nodes + 1, edges],
        Entry::Edge(_) => [nodes, edges + 1],
    }
}

fn too_many([nodes, edges]: [usize; 2]) -> bool {
    nodes > MOST_NODES || edges > MOST_EDGES
}

fn limits_at_once(reading: &Reading) -> Outcome {
    let (mut before, mut counts) = (BTreeSet::new(), [0, 0]);
    for (at, line) in lines(&reading.text).enumerate() {
        let entry = line_entry(line, &before).map_err(|number| at_line(number, at))?;
        before.insert(entry);
        counts = counted(counts, &entry);
        insist(!too_many(counts), 4)?;
    }
    reading.right()
}

/// With other limits than there are.
fn limited(reading: &Reading, nodes: usize, edges: usize) -> Outcome {
    let entries = entries(&reading.text)?;
    ends_stand(&entries)?;
    let contents = gathered(&entries);
    insist(contents.nodes.len() <= nodes && contents.edges.len() <= edges, 4)?;
    fitting(contents.words(1), reading.room)
}

fn as_long_as_a_file(reading: &Reading) -> Outcome {
    match reading.text.len() <= MOST_BYTES {
        true => reading.right(),
        false => Err(refusal(4)),
    }
}

/// As many rows are remembered as a sheet has.
fn forgotten(reading: &Reading) -> Outcome {
    let (mut before, mut all, mut counts) = (BTreeSet::new(), Vec::new(), [0, 0]);
    for (at, line) in lines(&reading.text).enumerate() {
        let entry = line_entry(line, &before).map_err(|number| at_line(number, at))?;
        all.push(entry);
        counts = counted(counts, &entry);
        if !too_many(counts) {
            before.insert(entry);
        }
    }
    ends_stand(&all)?;
    insist(!too_many(counts), 4)?;
    fitting(gathered(&all).words(1), reading.room)
}
