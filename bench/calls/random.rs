//! Random numbers, which are the same in each run (Knuth's MMIX generator).
pub fn next_random(state: u64) -> u64 {
    state.wrapping_mul(6_364_136_223_846_793_005).wrapping_add(1_442_695_040_888_963_407)
}

pub struct Random(u64);

impl Random {
    pub fn new() -> Random {
        Random(1)
    }

    pub fn below(&mut self, count: u64) -> u64 {
        self.0 = next_random(self.0);
        (self.0 >> 33) % count.max(1)
    }

    pub fn number(&mut self, given: u64) -> u64 {
        self.below(given) + 2
    }
}
