//! Random numbers from a seed: splitmix64.

pub struct Random {
    state: u64,
}

impl Random {
    /// A sequence for a seed and a name, so that each group has its own whatever ran before it.
    pub fn new(seed: u64, name: &str) -> Random {
        let mut random = Random { state: seed };
        for byte in name.bytes() {
            random.state = random.next() ^ u64::from(byte);
        }
        random
    }

    pub fn next(&mut self) -> u64 {
        self.state = self.state.wrapping_add(0x9e37_79b9_7f4a_7c15);
        let mut mixed = self.state;
        mixed = (mixed ^ (mixed >> 30)).wrapping_mul(0xbf58_476d_1ce4_e5b9);
        mixed = (mixed ^ (mixed >> 27)).wrapping_mul(0x94d0_49bb_1331_11eb);
        mixed ^ (mixed >> 31)
    }

    /// Below `end`, which is not 0.
    pub fn below(&mut self, end: usize) -> usize {
        (self.next() % end as u64) as usize
    }

    /// From `low` to `high`, both included.
    pub fn between(&mut self, low: usize, high: usize) -> usize {
        low + self.below(high - low + 1)
    }

    /// True once in `times`.
    pub fn one_in(&mut self, times: usize) -> bool {
        self.below(times) == 0
    }

    pub fn flag(&mut self) -> u64 {
        self.next() & 1
    }

    pub fn pick<T: Copy>(&mut self, from: &[T]) -> T {
        from[self.below(from.len())]
    }

    /// Any number: small ones, those of every size, and the two ends.
    pub fn number(&mut self) -> u64 {
        match self.below(4) {
            0 => self.next() % 8,
            1 => self.pick(&[0, 1, u64::MAX, u64::MAX - 1, 1 << 63, 1 << 32]),
            _ => {
                let shift = self.below(64);
                self.next() >> shift
            }
        }
    }
}
