//! How many tests passed and failed; the last line and the exit status come
//! from here and nowhere else.

#[derive(Default)]
pub struct Tally {
    pub passed: usize,
    pub failed: usize,
}

impl Tally {
    pub fn count(&mut self, passed: bool) {
        if passed {
            self.passed += 1;
        } else {
            self.failed += 1;
        }
    }

    /// Counts, and names what failed.
    pub fn test(&mut self, name: &str, passed: bool) {
        self.count(passed);
        if !passed {
            println!("FAILED: {name}");
        }
    }

    /// A run in which nothing was tried proves nothing.
    pub fn good(&self) -> bool {
        self.failed == 0 && self.passed > 0
    }

    pub fn print(&self) {
        println!("{} passed, {} failed", self.passed, self.failed);
    }
}
