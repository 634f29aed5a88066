//! Random numbers from a seed (splitmix64), the same on every machine.

pub struct Random {
    state: u64,
    locks: bool,
}

impl Random {
    pub fn new(seed: u64) -> Random {
        Random { state: seed.wrapping_mul(0x9e37_79b9_7f4a_7c15) ^ 0x5851_f42d_4c95_7f2d, locks: false }
    }

    /// Each number of a seed has numbers of its own.
    pub fn numbered(seed: u64, number: u64) -> Random {
        Random::new(seed.wrapping_mul(1_000_003).wrapping_add(number))
    }

    /// For texts: whether kl is drawn too. Without it the texts of a seed are those that they were before Req 03.
    pub fn with_locks(self, locks: bool) -> Random {
        Random { locks, ..self }
    }

    pub fn locks(&self) -> bool {
        self.locks
    }

    pub fn word(&mut self) -> u64 {
        self.state = self.state.wrapping_add(0x9e37_79b9_7f4a_7c15);
        let mut z = self.state;
        z = (z ^ z >> 30).wrapping_mul(0xbf58_476d_1ce4_e5b9);
        z = (z ^ z >> 27).wrapping_mul(0x94d0_49bb_1331_11eb);
        z ^ z >> 31
    }

    /// A number below `end`; 0 where `end` is 0.
    pub fn below(&mut self, end: usize) -> usize {
        if end == 0 { 0 } else { (self.word() % end as u64) as usize }
    }

    pub fn between(&mut self, low: usize, high: usize) -> usize {
        low + self.below(high - low + 1)
    }

    /// True in `part` of `whole` cases.
    pub fn chance(&mut self, part: usize, whole: usize) -> bool {
        self.below(whole) < part
    }

    pub fn pick<'a, T>(&mut self, from: &'a [T]) -> &'a T {
        &from[self.below(from.len())]
    }
}
