//! A set of ranks below the most nodes that a sheet can have.

use crate::model::limits::MOST_NODES;

#[derive(Clone, Copy, Debug, Default, PartialEq)]
pub struct Bits([u64; MOST_NODES / 64]);

impl Bits {
    pub fn add(&mut self, rank: usize) {
        self.0[rank / 64] |= 1 << (rank % 64);
    }

    pub fn has(&self, rank: usize) -> bool {
        self.0[rank / 64] >> (rank % 64) & 1 == 1
    }

    pub fn join(&mut self, other: &Bits) {
        for (word, more) in self.0.iter_mut().zip(other.0) {
            *word |= more;
        }
    }

    pub fn common(&self, other: &Bits) -> Bits {
        let mut common = *self;
        for (word, kept) in common.0.iter_mut().zip(other.0) {
            *word &= kept;
        }
        common
    }

    pub fn meets(&self, other: &Bits) -> bool {
        self.common(other) != Bits::default()
    }

    pub fn lowest(&self) -> Option<usize> {
        let at = self.0.iter().position(|&word| word != 0)?;
        Some(64 * at + self.0[at].trailing_zeros() as usize)
    }
}
