//! How far a long run is, now and then, on standard error.

use std::time::{Duration, Instant};

const EVERY: Duration = Duration::from_secs(60);

pub struct Progress {
    all: usize,
    done: usize,
    began: Instant,
    told: Instant,
}

impl Progress {
    pub fn of(all: usize) -> Progress {
        let now = Instant::now();
        Progress { all, done: 0, began: now, told: now }
    }

    pub fn step(&mut self) {
        self.done += 1;
        if self.told.elapsed() < EVERY && self.done < self.all {
            return;
        }
        self.told = Instant::now();
        let seconds = self.began.elapsed().as_secs_f64();
        let rate = self.done as f64 / seconds;
        eprintln!("{} of {} cases, {seconds:.0} s, {rate:.0} a second", self.done, self.all);
    }
}
