//! splitmix64: small enough to see through, and started anew for every case,
//! so that one case can be made again without the ones before it.

use crate::model::limits::{MOST_EDGES, MOST_NODES};

/// Numbers below this are met often: counts of rows at the limits, and rows.
const COUNTS: usize = 2_100;
const _: () = assert!(COUNTS > MOST_EDGES && COUNTS > MOST_NODES);

pub struct Random {
    state: u64,
}

impl Random {
    /// The seed is stirred before the case number comes in: otherwise seed 1,
    /// case 2 and seed 2, case 1 could be the same case.
    pub fn for_case(seed: u64, case: u64) -> Random {
        let stirred = Random { state: seed }.long();
        let start = Random { state: stirred ^ case }.long();
        Random { state: start }
    }

    pub fn long(&mut self) -> u64 {
        self.state = self.state.wrapping_add(0x9E37_79B9_7F4A_7C15);
        let mut mixed = self.state;
        mixed = (mixed ^ (mixed >> 30)).wrapping_mul(0xBF58_476D_1CE4_E5B9);
        mixed = (mixed ^ (mixed >> 27)).wrapping_mul(0x94D0_49BB_1331_11EB);
        mixed ^ (mixed >> 31)
    }

    pub fn word(&mut self) -> u32 {
        (self.long() >> 32) as u32
    }

    pub fn below(&mut self, limit: usize) -> usize {
        assert!(limit > 0, "a choice among nothing");
        ((self.long() >> 16) % limit as u64) as usize
    }

    /// Both ends included.
    pub fn between(&mut self, low: usize, high: usize) -> usize {
        low + self.below(high - low + 1)
    }

    pub fn one_in(&mut self, chances: usize) -> bool {
        self.below(chances) == 0
    }

    pub fn pick<T: Copy>(&mut self, from: &[T]) -> T {
        from[self.below(from.len())]
    }

    /// One of these by their shares out of 100.
    pub fn manner(&mut self, manners: &[(&'static str, usize)]) -> &'static str {
        let mut chance = self.below(100);
        for &(name, share) in manners {
            if chance < share {
                return name;
            }
            chance -= share;
        }
        manners[0].0
    }

    pub fn shuffle<T>(&mut self, items: &mut [T]) {
        for end in (1..items.len()).rev() {
            let other = self.below(end + 1);
            items.swap(end, other);
        }
    }

    /// Words at the edges of the range are where arithmetic goes wrong, and a
    /// plain random word never meets them.
    pub fn odd_word(&mut self) -> u32 {
        match self.below(8) {
            0 => self.below(8) as u32,
            1 => u32::MAX - self.below(4) as u32,
            2 => 1 << self.below(32),
            3 => self.below(COUNTS) as u32,
            _ => self.word(),
        }
    }

    /// An odd word that is not below `least`.
    pub fn odd_word_from(&mut self, least: u32) -> u32 {
        let near = least.saturating_add(self.below(4) as u32);
        match self.below(3) {
            0 => near,
            _ => self.odd_word().max(least),
        }
    }
}
