//! Everything an office says of one person, all at once: the closure of the
//! containments is made once, and what the person may and may not do is then a
//! set of pairs. No path is walked.

use std::collections::BTreeSet;

use crate::model::bits::Bits;
use crate::model::closure::Ranks;
use crate::model::office::{Deed, Office, Side};

pub struct Reach<'a> {
    pub office: &'a Office,
    ranks: Ranks,
    /// By rank: the category itself and those it is contained in.
    pub above: Vec<Bits>,
    /// By rank: the category itself and those contained in it.
    pub below: Vec<Bits>,
}

impl<'a> Reach<'a> {
    pub fn of(office: &'a Office) -> Reach<'a> {
        let ranks = Ranks::of(office, Side::Grant);
        let above = ranks.closure();
        let below = Ranks::of(office, Side::Ban).closure();
        Reach { office, ranks, above, below }
    }

    fn from(&self, side: Side, category: u32) -> &Bits {
        let rank = self.ranks.rank(category);
        match side {
            Side::Grant => &self.above[rank],
            Side::Ban => &self.below[rank],
        }
    }

    /// Whether a path of this side may lead from one category to the other,
    /// over no step, one, or more.
    pub fn leads(&self, side: Side, from: u32, to: u32) -> bool {
        self.from(side, from).has(self.ranks.rank(to))
    }

    /// The categories the person is a member of.
    pub fn own(&self, person: u32) -> impl Iterator<Item = u32> + '_ {
        let pairs = self.office.member.range((person, 0)..=(person, u32::MAX));
        pairs.map(|pair| pair.1)
    }

    fn rights(&self, side: Side, person: u32) -> BTreeSet<Deed> {
        let mut reached = Bits::default();
        self.own(person).for_each(|category| reached.join(self.from(side, category)));
        let held = |category: u32| reached.has(self.ranks.rank(category));
        self.office.rights(side).iter().filter(|pair| held(pair.0)).map(|pair| pair.1).collect()
    }

    /// Deed number and folio of every path of this side that the person has. A
    /// walk that repeats a category can be cut short, so reaching is enough.
    pub fn pairs(&self, side: Side, person: u32) -> BTreeSet<(u32, u32)> {
        let rights = self.rights(side, person);
        let served = self.office.applies.iter().filter(|pair| rights.contains(&pair.0));
        served.map(|&(deed, folio)| (deed.0, folio)).collect()
    }

    /// The folios among them that belong to one deed.
    pub fn folios(&self, side: Side, person: u32, deed: u32) -> BTreeSet<u32> {
        let pairs = self.pairs(side, person).into_iter();
        pairs.filter(|pair| pair.0 == deed).map(|pair| pair.1).collect()
    }

    /// The variants of the deed by which the person has a path to the folio.
    pub fn nodes_of(&self, side: Side, person: u32, deed: u32, folio: u32) -> BTreeSet<Deed> {
        let mut nodes = self.rights(side, person);
        nodes.retain(|&node| node.0 == deed && self.office.applies.contains(&(node, folio)));
        nodes
    }

    /// Whether another category contains this one and is contained in it.
    pub fn on_ring(&self, category: u32) -> bool {
        let mut others = self.office.categories.iter().filter(|&&other| other != category);
        others.any(|&other| {
            self.leads(Side::Grant, category, other) && self.leads(Side::Grant, other, category)
        })
    }
}
