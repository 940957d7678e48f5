//! What a sheet holds, by identities: each node and each edge with its offices.
//! Row numbers are gone once it is made, and are given anew when it is written.

use std::collections::BTreeMap;

use crate::model::sheet::*;

/// type, number, variant
pub type Identity = (u32, u32, u32);

/// kind, from, to
pub type Link = (u32, Identity, Identity);

#[derive(Clone, Debug, Default, PartialEq)]
pub struct Contents {
    pub nodes: BTreeMap<Identity, u32>,
    pub edges: BTreeMap<Link, u32>,
}

impl Contents {
    /// Of an accepted sheet.
    pub fn of(words: &[u32]) -> Contents {
        let nodes = node_rows(words);
        let identity = |row: &Row| (row[0], row[1], row[2]);
        let end = |row: u32| identity(&nodes[row as usize]);
        let link = |row: &[u32]| (row[0], end(row[1]), end(row[2]));
        Contents {
            nodes: nodes.iter().map(|row| (identity(row), row[3])).collect(),
            edges: edge_rows(words).map(|row| (link(row), row[3])).collect(),
        }
    }

    /// As the words of a sheet, whose rows rise.
    pub fn words(&self, office_count: u32) -> Vec<u32> {
        let rows: BTreeMap<&Identity, u32> = self.nodes.keys().zip(0..).collect();
        let node = |(&(sort, number, variant), &offices)| [sort, number, variant, offices];
        let edge = |(link, &offices): (&Link, &u32)| {
            let (kind, from, to) = link;
            [*kind, rows[from], rows[to], offices]
        };
        let mut nodes: Vec<Row> = self.nodes.iter().map(node).collect();
        let mut edges: Vec<Row> = self.edges.iter().map(edge).collect();
        nodes.sort();
        edges.sort();
        Sheet { office_count, nodes, edges }.words()
    }
}
