//! A sheet drawn up by identities. An edge marks both its ends and the maps
//! keep the rows in order, so whatever is drawn is a valid sheet.

use std::collections::BTreeMap;

use crate::model::contents::{Identity, Link};
use crate::model::office::{Deed, Side};
use crate::model::sheet::*;

#[derive(Clone, Default)]
pub struct Draft {
    nodes: BTreeMap<Identity, u32>,
    edges: BTreeMap<Link, u32>,
}

impl Draft {
    pub fn node(&mut self, identity: Identity, offices: u32) {
        *self.nodes.entry(identity).or_insert(0) |= offices;
    }

    fn edge(&mut self, kind: u32, from: Identity, to: Identity, offices: u32) {
        self.node(from, offices);
        self.node(to, offices);
        *self.edges.entry((kind, from, to)).or_insert(0) |= offices;
    }

    pub fn member(&mut self, person: u32, category: u32, offices: u32) {
        self.edge(MEMBER, (PERSON, person, 0), (CATEGORY, category, 0), offices);
    }

    /// One step that a path of this side may take. A category is never
    /// contained in itself, so such a step is left out.
    pub fn step(&mut self, side: Side, from: u32, to: u32, offices: u32) {
        let (low, high) = match side {
            Side::Grant => (from, to),
            Side::Ban => (to, from),
        };
        if low != high {
            self.edge(CONTAINED, (CATEGORY, low, 0), (CATEGORY, high, 0), offices);
        }
    }

    pub fn right(&mut self, side: Side, category: u32, deed: Deed, offices: u32) {
        let kind = match side {
            Side::Grant => GRANT,
            Side::Ban => BAN,
        };
        self.edge(kind, (CATEGORY, category, 0), (DEED, deed.0, deed.1), offices);
    }

    pub fn applies(&mut self, deed: Deed, folio: u32, offices: u32) {
        self.edge(APPLIES, (DEED, deed.0, deed.1), (FOLIO, folio, 0), offices);
    }

    pub fn edge_count(&self) -> usize {
        self.edges.len()
    }

    /// Every node known to these offices as well; no edge is.
    pub fn known_to(&mut self, offices: u32) {
        self.nodes.values_mut().for_each(|marks| *marks |= offices);
    }

    pub fn sheet(&self, office_count: u32) -> Sheet {
        let rows: BTreeMap<Identity, u32> =
            self.nodes.keys().enumerate().map(|(row, &identity)| (identity, row as u32)).collect();
        let node =
            |(&(sort, number, variant), &marks): (&Identity, &u32)| [sort, number, variant, marks];
        let edge =
            |(&(kind, from, to), &marks): (&Link, &u32)| [kind, rows[&from], rows[&to], marks];
        Sheet {
            office_count,
            nodes: self.nodes.iter().map(node).collect(),
            edges: self.edges.iter().map(edge).collect(),
        }
    }
}
