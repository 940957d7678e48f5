//! Which operations a run is about: all of them, or those named.

use std::ops::RangeInclusive;

#[derive(Clone, Default)]
pub struct Scope {
    named: Vec<RangeInclusive<u32>>,
}

impl Scope {
    /// Numbers and stretches of them: 5 or 5-10 or 0,1-4,20.
    pub fn name(&mut self, words: &str) -> Option<()> {
        for word in words.split(',') {
            let (low, high) = word.split_once('-').unwrap_or((word, word));
            let (low, high) = (low.parse().ok()?, high.parse().ok()?);
            if low > high {
                return None;
            }
            self.named.push(low..=high);
        }
        Some(())
    }

    pub fn is_all(&self) -> bool {
        self.named.is_empty()
    }

    pub fn has(&self, operation: u32) -> bool {
        self.is_all() || self.named.iter().any(|some| some.contains(&operation))
    }
}
