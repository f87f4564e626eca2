//! A hasher that costs next to nothing, so that the time is the time of the call. It is the one of `ratio_hash_i32`,
//! `ratio_hash_i64` and `ratio_hash_i128`.

use std::hash::Hasher;

/// The hash is multiplied by this before it takes the next number.
const MULTIPLIER: u64 = 0x9e37_79b9_7f4a_7c15;

pub struct Mixing {
    state: u64,
}

impl Mixing {
    pub fn new() -> Mixing {
        Mixing { state: 0 }
    }

    #[inline]
    fn take(&mut self, residue: u64) {
        self.state = self.state.wrapping_mul(MULTIPLIER).wrapping_add(residue);
    }
}

impl Hasher for Mixing {
    fn finish(&self) -> u64 {
        self.state
    }

    /// The numbers of other types are not hashed here.
    fn write(&mut self, _: &[u8]) {
        unreachable!()
    }

    #[inline]
    fn write_i32(&mut self, number: i32) {
        self.take(number as u64);
    }

    #[inline]
    fn write_i64(&mut self, number: i64) {
        self.take(number as u64);
    }

    #[inline]
    fn write_i128(&mut self, number: i128) {
        self.take(number as u64);
    }
}
