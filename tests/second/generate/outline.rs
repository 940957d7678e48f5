//! What stands in a sheet, by identities and without marks: so a part of it, or
//! what is much like it, can be made into another sheet.

use std::collections::{BTreeMap, BTreeSet};

use crate::generate::marks::part_of;
use crate::generate::random::Random;
use crate::model::contents::{Identity, Link};
use crate::model::marks::all_marks;
use crate::model::sheet::*;

#[derive(Clone, Debug, Default, PartialEq)]
pub struct Outline {
    pub nodes: BTreeSet<Identity>,
    pub links: BTreeSet<Link>,
}

impl Outline {
    pub fn of(sheet: &Sheet) -> Outline {
        let identity = |row: &Row| (row[0], row[1], row[2]);
        let end = |row: u32| identity(&sheet.nodes[row as usize]);
        Outline {
            nodes: sheet.nodes.iter().map(identity).collect(),
            links: sheet.edges.iter().map(|row| (row[0], end(row[1]), end(row[2]))).collect(),
        }
    }

    /// Without these nodes, and so without their links.
    pub fn keep(&self, mut keep: impl FnMut(&Identity) -> bool) -> Outline {
        let nodes: BTreeSet<Identity> = self.nodes.iter().copied().filter(|it| keep(it)).collect();
        let whole = |link: &&Link| nodes.contains(&link.1) && nodes.contains(&link.2);
        let links = self.links.iter().filter(whole).copied().collect();
        Outline { nodes, links }
    }

    pub fn keep_links(&self, mut keep: impl FnMut(&Link) -> bool) -> Outline {
        let links = self.links.iter().copied().filter(|link| keep(link)).collect();
        Outline { nodes: self.nodes.clone(), links }
    }

    /// Every identity by another one; no two of them may become equal.
    pub fn renamed(&self, name: impl Fn(Identity) -> Identity) -> Outline {
        Outline {
            nodes: self.nodes.iter().map(|&it| name(it)).collect(),
            links: self
                .links
                .iter()
                .map(|&(kind, from, to)| (kind, name(from), name(to)))
                .collect(),
        }
    }

    /// As a sheet of so many offices; a link whose ends have no office in common
    /// is left out.
    pub fn marked(&self, random: &mut Random, office_count: u32) -> Sheet {
        let all = all_marks(office_count);
        let mut places = BTreeMap::new();
        let mut sheet = Sheet::new(office_count, &[], &[]);
        for (row, &(sort, number, variant)) in self.nodes.iter().enumerate() {
            places.insert((sort, number, variant), row as u32);
            sheet.nodes.push([sort, number, variant, part_of(random, all, 1)]);
        }
        for (kind, from, to) in &self.links {
            let (from, to) = (places[from], places[to]);
            let common = sheet.nodes[from as usize][3] & sheet.nodes[to as usize][3];
            if common != 0 {
                sheet.edges.push([*kind, from, to, part_of(random, common, 1)]);
            }
        }
        sheet
    }
}
