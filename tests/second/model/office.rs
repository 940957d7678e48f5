//! What one office sees of a sheet: the rows marked with it and nothing else,
//! as sets of identities. Row numbers are gone once it is made, so nothing
//! that follows can depend on the order of rows.

use std::collections::BTreeSet;

use crate::model::marks::{all_marks, mark_of};
use crate::model::sheet::*;

/// number, variant
pub type Deed = (u32, u32);

#[derive(Clone, Copy, Debug, PartialEq, Eq)]
pub enum Side {
    Grant,
    Ban,
}

impl Side {
    /// 0 asks for a grant and any other word for a ban.
    pub fn of_word(kind: u32) -> Side {
        match kind {
            0 => Side::Grant,
            _ => Side::Ban,
        }
    }

    pub fn other(self) -> Side {
        match self {
            Side::Grant => Side::Ban,
            Side::Ban => Side::Grant,
        }
    }
}

#[derive(Clone, Copy, Debug, PartialEq)]
pub struct Ask {
    pub person: u32,
    pub deed: u32,
    pub folio: u32,
}

#[derive(Clone, Default)]
pub struct Office {
    pub persons: BTreeSet<u32>,
    pub categories: BTreeSet<u32>,
    pub deeds: BTreeSet<Deed>,
    pub folios: BTreeSet<u32>,
    pub member: BTreeSet<(u32, u32)>,
    pub contained: BTreeSet<(u32, u32)>,
    pub grant: BTreeSet<(u32, Deed)>,
    pub ban: BTreeSet<(u32, Deed)>,
    pub applies: BTreeSet<(Deed, u32)>,
}

impl Office {
    /// From the words of an accepted sheet.
    pub fn of(words: &[u32], office: u32) -> Office {
        Office::marked(words, mark_of(office))
    }

    /// All offices taken for one. No question means this; the lists that
    /// must be refused as stitched are made with it.
    pub fn stitched(words: &[u32]) -> Office {
        Office::marked(words, all_marks(office_count(words)))
    }

    fn marked(words: &[u32], marks: u32) -> Office {
        let nodes = node_rows(words);
        let mut office = Office::default();
        for row in nodes.iter().filter(|row| row[3] & marks != 0) {
            office.add_node(row);
        }
        for row in edge_rows(words).filter(|row| row[3] & marks != 0) {
            let end = |row: u32| {
                let [_, number, variant, _] = nodes[row as usize];
                (number, variant)
            };
            office.add_edge(row[0], end(row[1]), end(row[2]));
        }
        office
    }

    fn add_node(&mut self, row: &[u32]) {
        let (number, variant) = (row[1], row[2]);
        match row[0] {
            PERSON => self.persons.insert(number),
            CATEGORY => self.categories.insert(number),
            DEED => self.deeds.insert((number, variant)),
            _ => self.folios.insert(number),
        };
    }

    fn add_edge(&mut self, kind: u32, from: Deed, to: Deed) {
        match kind {
            MEMBER => self.member.insert((from.0, to.0)),
            CONTAINED => self.contained.insert((from.0, to.0)),
            GRANT => self.grant.insert((from.0, to)),
            BAN => self.ban.insert((from.0, to)),
            _ => self.applies.insert((from, to.0)),
        };
    }

    pub fn knows_deed(&self, number: u32) -> bool {
        self.deeds.iter().any(|deed| deed.0 == number)
    }

    pub fn rights(&self, side: Side) -> &BTreeSet<(u32, Deed)> {
        match side {
            Side::Grant => &self.grant,
            Side::Ban => &self.ban,
        }
    }

    /// Whether a path of this side may go from one category to the other.
    pub fn steps(&self, side: Side, from: u32, to: u32) -> bool {
        match side {
            Side::Grant => self.contained.contains(&(from, to)),
            Side::Ban => self.contained.contains(&(to, from)),
        }
    }

    /// Every pair of categories between which it may.
    pub fn all_steps(&self, side: Side) -> Vec<(u32, u32)> {
        let turned = |&(low, high): &(u32, u32)| match side {
            Side::Grant => (low, high),
            Side::Ban => (high, low),
        };
        self.contained.iter().map(turned).collect()
    }

    /// The variants of the deed asked that apply to the folio asked.
    pub fn serving(&self, ask: &Ask) -> BTreeSet<Deed> {
        let serves = |pair: &&(Deed, u32)| pair.0 .0 == ask.deed && pair.1 == ask.folio;
        self.applies.iter().filter(serves).map(|pair| pair.0).collect()
    }

    /// Every variant of a deed taken for one. No question means this; it shows
    /// where the variants matter.
    pub fn fused(&self) -> Office {
        let one = |deed: Deed| (deed.0, 0);
        Office {
            deeds: self.deeds.iter().map(|&deed| one(deed)).collect(),
            grant: self.grant.iter().map(|&(category, deed)| (category, one(deed))).collect(),
            ban: self.ban.iter().map(|&(category, deed)| (category, one(deed))).collect(),
            applies: self.applies.iter().map(|&(deed, folio)| (one(deed), folio)).collect(),
            ..self.clone()
        }
    }
}
