//! Grant and ban paths by closure. Whether there is one is read off the
//! transitive closure of the containments (Warshall's); the witness off the
//! sets of categories from which the end is exactly k steps away.

use crate::model::bits::Bits;
use crate::model::office::{Ask, Deed, Office, Side};

/// The categories of an office by rank: the lower the number, the lower the
/// rank.
pub struct Ranks {
    numbers: Vec<u32>,
    /// Where one step of a path leads from each rank.
    pub next: Vec<Bits>,
}

impl Ranks {
    pub fn of(office: &Office, side: Side) -> Ranks {
        let numbers: Vec<u32> = office.categories.iter().copied().collect();
        let next = vec![Bits::default(); numbers.len()];
        let mut ranks = Ranks { numbers, next };
        for (from, to) in office.all_steps(side) {
            let (from, to) = (ranks.rank(from), ranks.rank(to));
            ranks.next[from].add(to);
        }
        ranks
    }

    pub fn rank(&self, category: u32) -> usize {
        let found = self.numbers.binary_search(&category);
        found.expect("an edge's mark is also its ends'")
    }

    pub fn set(&self, categories: impl Iterator<Item = u32>) -> Bits {
        let mut set = Bits::default();
        categories.for_each(|category| set.add(self.rank(category)));
        set
    }

    /// The same office without the steps out of one category.
    pub fn without_steps_from(&self, category: u32) -> Ranks {
        let mut next = self.next.clone();
        next[self.rank(category)] = Bits::default();
        Ranks { numbers: self.numbers.clone(), next }
    }

    fn starts(&self, office: &Office, ask: &Ask) -> Bits {
        let own = office.member.iter().filter(|pair| pair.0 == ask.person);
        self.set(own.map(|pair| pair.1))
    }

    fn ends(&self, office: &Office, side: Side, ask: &Ask) -> Bits {
        let serving = office.serving(ask);
        let leading = office.rights(side).iter().filter(|pair| serving.contains(&pair.1));
        self.set(leading.map(|pair| pair.0))
    }

    /// What each rank reaches over no step, one, or more.
    pub fn closure(&self) -> Vec<Bits> {
        let mut reached = self.next.clone();
        for (rank, set) in reached.iter_mut().enumerate() {
            set.add(rank);
        }
        for through in 0..reached.len() {
            let further = reached[through];
            for set in reached.iter_mut().filter(|set| set.has(through)) {
                set.join(&further);
            }
        }
        reached
    }

    fn leads(&self, starts: &Bits, ends: &Bits) -> bool {
        let reached = self.closure();
        (0..reached.len()).any(|rank| starts.has(rank) && reached[rank].meets(ends))
    }

    /// The ranks from which one step leads into the set.
    fn before(&self, set: &Bits) -> Bits {
        let mut before = Bits::default();
        for (rank, next) in self.next.iter().enumerate() {
            if next.meets(set) {
                before.add(rank);
            }
        }
        before
    }
}

/// A walk that repeats a category can be cut short to one that does not, so
/// reaching is enough.
pub fn has_path(office: &Office, side: Side, ask: &Ask) -> bool {
    let ranks = Ranks::of(office, side);
    let ends = ranks.ends(office, side, ask);
    ranks.leads(&ranks.starts(office, ask), &ends)
}

/// The path with fewest nodes, and of those the first in dictionary order.
pub fn witness(office: &Office, side: Side, ask: &Ask) -> Option<Vec<(u32, u32)>> {
    let ranks = Ranks::of(office, side);
    let starts = ranks.starts(office, ask);
    let ends = ranks.ends(office, side, ask);
    if !ranks.leads(&starts, &ends) {
        return None;
    }
    let mut layers = vec![ends];
    while !starts.meets(&layers[layers.len() - 1]) {
        layers.push(ranks.before(&layers[layers.len() - 1]));
    }
    let mut path = vec![(ask.person, 0)];
    let mut choice = starts;
    // Two paths of one length differ first at a category, or else at the
    // variant: the least choice that still leads there is the least path.
    for layer in layers.iter().rev() {
        let rank = choice.common(layer).lowest()?;
        path.push((ranks.numbers[rank], 0));
        choice = ranks.next[rank];
    }
    let last = path[path.len() - 1].0;
    path.push(least_deed(office, side, ask, last)?);
    path.push((ask.folio, 0));
    Some(path)
}

fn least_deed(office: &Office, side: Side, ask: &Ask, category: u32) -> Option<Deed> {
    let rights = office.rights(side);
    office.serving(ask).into_iter().find(|&deed| rights.contains(&(category, deed)))
}
