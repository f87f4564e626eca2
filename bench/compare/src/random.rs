//! Random numbers from a fixed seed: splitmix64.

pub struct Random(u64);

impl Random {
    pub fn new(seed: u64) -> Random {
        Random(seed)
    }

    pub fn word(&mut self) -> u64 {
        self.0 = self.0.wrapping_add(0x9e37_79b9_7f4a_7c15);
        let mixed = (self.0 ^ (self.0 >> 30)).wrapping_mul(0xbf58_476d_1ce4_e5b9);
        let mixed = (mixed ^ (mixed >> 27)).wrapping_mul(0x94d0_49bb_1331_11eb);
        mixed ^ (mixed >> 31)
    }

    /// From 0 to `end - 1`.
    pub fn below(&mut self, end: u128) -> u128 {
        let wide = (u128::from(self.word()) << 64) | u128::from(self.word());
        wide % end
    }

    /// From `1 - end` to `end - 1`.
    pub fn signed(&mut self, end: u128) -> i128 {
        let magnitude = self.below(end) as i128;
        if self.word() & 1 == 0 {
            magnitude
        } else {
            -magnitude
        }
    }
}
