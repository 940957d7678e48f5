//! Pairs of one-office sheets whose union has just so many nodes and edges: at
//! the limits, above one of them and above both.

use std::collections::BTreeMap;

use crate::generate::outline::Outline;
use crate::generate::pairs::Pair;
use crate::generate::random::Random;
use crate::model::contents::{Identity, Link};
use crate::model::limits::{MOST_EDGES, MOST_NODES};
use crate::model::sheet::*;

/// Nodes and edges of the union.
pub const UNIONS: [(usize, usize); 12] = [
    (MOST_NODES - 1, MOST_EDGES - 1),
    (MOST_NODES, 300),
    (MOST_NODES + 1, 300),
    (2 * MOST_NODES, 600),
    (400, MOST_EDGES),
    (400, MOST_EDGES + 1),
    (400, 2 * MOST_EDGES),
    (MOST_NODES, MOST_EDGES),
    (MOST_NODES, MOST_EDGES + 1),
    (MOST_NODES + 1, MOST_EDGES),
    (MOST_NODES + 1, MOST_EDGES + 1),
    (2 * MOST_NODES, 2 * MOST_EDGES),
];

/// Each node and link with 1 for the first sheet, 2 for the second, 3 for both.
type Shares<K> = BTreeMap<K, u32>;

pub fn pair(random: &mut Random, nodes: usize, edges: usize) -> Pair {
    let nodes = shared_out(random, nodes);
    let links = linked(random, &nodes, edges);
    let side = |office: u32| Outline {
        nodes: of_side(&nodes, office).copied().collect(),
        links: of_side(&links, office).copied().collect(),
    };
    (side(1), side(2))
}

fn of_side<K: Ord>(shares: &Shares<K>, office: u32) -> impl Iterator<Item = &K> {
    shares.iter().filter(move |(_, &share)| share & office != 0).map(|(key, _)| key)
}

/// Neither sheet may have more of them than there may be, and neither has few.
fn shared_out(random: &mut Random, nodes: usize) -> Shares<Identity> {
    let most = nodes.min(2 * MOST_NODES - nodes);
    let shared = match random.below(4) {
        0 => 0,
        1 => most,
        _ => random.below(most + 1),
    };
    let alone = nodes - shared;
    let room = MOST_NODES - shared;
    let least = alone.saturating_sub(room).max(alone / 3);
    let first = random.between(least, room.min(alone - alone / 3).max(least));
    let mut all = identities(random, nodes);
    random.shuffle(&mut all);
    let share = |at: usize| match at {
        _ if at < shared => 3,
        _ if at < shared + first => 1,
        _ => 2,
    };
    all.into_iter().enumerate().map(|(at, identity)| (identity, share(at))).collect()
}

/// Most of them categories, so that there are links enough.
fn identities(random: &mut Random, nodes: usize) -> Vec<Identity> {
    let base = random.pick(&[1, 5_000, u32::MAX - 3 * nodes as u32]);
    let mut all = BTreeMap::new();
    while all.len() < nodes {
        let sort = random.pick(&[1, 2, 2, 2, 2, 2, 2, 3, 3, 4]);
        let number = base + random.below(3 * nodes) as u32;
        let variant = if sort == DEED { random.below(3) as u32 } else { 0 };
        all.insert((sort, number, variant), ());
    }
    all.into_keys().collect()
}

/// A link is in a sheet that has both its ends and room for it.
fn linked(random: &mut Random, nodes: &Shares<Identity>, edges: usize) -> Shares<Link> {
    let of_type = |sort: u32| -> Vec<Identity> {
        nodes.keys().copied().filter(|identity| identity.0 == sort).collect()
    };
    let types = [1, 2, 3, 4].map(of_type);
    let mut left = [MOST_EDGES; 2];
    let mut links = Shares::new();
    while links.len() < edges {
        let link = any_link(random, &types);
        if link.1 == link.2 || links.contains_key(&link) {
            continue;
        }
        let ends = nodes[&link.1] & nodes[&link.2];
        let to_come = edges - links.len();
        let share = link_share(random, ends, left, to_come);
        if share != 0 {
            left[0] -= (share & 1) as usize;
            left[1] -= (share >> 1) as usize;
            links.insert(link, share);
        }
    }
    links
}

fn any_link(random: &mut Random, types: &[Vec<Identity>; 4]) -> Link {
    let kind = random.pick(&[1, 2, 2, 2, 3, 4, 5]);
    let (from, to) = end_types(kind).unwrap_or_default();
    (kind, random.pick(&types[from as usize - 1]), random.pick(&types[to as usize - 1]))
}

/// In both only where what is left is more than what is still to come.
fn link_share(random: &mut Random, ends: u32, left: [usize; 2], to_come: usize) -> u32 {
    let open = u32::from(left[0] > 0) + 2 * u32::from(left[1] > 0);
    match ends & open {
        3 if left[0] + left[1] > to_come => random.pick(&[1, 2, 3, 3]),
        3 => random.pick(&[1, 2]),
        share => share,
    }
}
