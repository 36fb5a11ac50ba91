//! For unit tests: the numbers of the other tests, and more ways to draw them.

#[path = "../tests/random/mod.rs"]
mod drawn;

pub use drawn::Random;

impl Random {
    /// Once in so many times.
    pub fn rarely(&mut self, times: usize) -> bool {
        self.below(times) == 0
    }

    pub fn byte(&mut self) -> u8 {
        self.below(256) as u8
    }

    pub fn pick(&mut self, list: &[u8]) -> u8 {
        list[self.below(list.len())]
    }
}
