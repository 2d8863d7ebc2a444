//! Numbers by chance, the same in every run.

/// A generator of the xorshift kind.
pub struct Random(u64);

impl Random {
    pub fn new(seed: u64) -> Random {
        Random(seed.max(1))
    }

    pub fn next(&mut self) -> u64 {
        self.0 ^= self.0 << 13;
        self.0 ^= self.0 >> 7;
        self.0 ^= self.0 << 17;
        self.0
    }

    pub fn below(&mut self, limit: usize) -> usize {
        (self.next() % limit as u64) as usize
    }

    /// A number near an end of some range, or any.
    pub fn edge(&mut self) -> u64 {
        let near = self.next() % 4;
        match self.next() % 8 {
            0 => near,
            1 => u64::MAX - near,
            2 => (1 << 20) - 1 + near,
            3 => (1 << 32) - 2 + near,
            4 => (1 << 16) - 2 + near,
            5 => self.next() % 100,
            6 => self.next() % 256,
            _ => self.next(),
        }
    }
}
