//! Numbers drawn from a stated seed, the same on every machine: xorshift64*, which has nothing of the mixer under test.

pub struct Draw {
    state: u64,
}

impl Draw {
    /// `seed` is not 0.
    pub fn new(seed: u64) -> Self {
        Draw { state: seed }
    }

    pub fn next(&mut self) -> u64 {
        self.state ^= self.state >> 12;
        self.state ^= self.state << 25;
        self.state ^= self.state >> 27;
        self.state.wrapping_mul(0x2545_F491_4F6C_DD1D)
    }

    /// A number below `end`, which is not 0.
    pub fn below(&mut self, end: u64) -> u64 {
        self.next() % end
    }
}
