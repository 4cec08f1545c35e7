//! Numbers that look random.

/// A source of numbers that look random, and are the same in each run.
#[derive(Drop)]
pub struct Numbers {
    state: u64,
}

impl Numbers {
    /// The numbers that follow from a seed, which is not 0.
    pub fn new(seed: u64) -> Self {
        Numbers { state: seed }
    }

    /// The next number, below this one.
    pub fn below(&mut self, count: usize) -> usize {
        let mut next = self.state;
        next ^= next << 13;
        next ^= next >> 7;
        next ^= next << 17;
        self.state = next;
        (next % count as u64) as usize
    }
}
