// Erased from crates/ratio_c/src/wide.rt by rust/erase: not to be edited.
//! `Wide`: an `i128` as it crosses, in two halves.

/// An `i128` as its two halves: the number is `high` times 2^64, plus `low`.
#[repr(C)]
pub struct Wide {
    pub low: u64,
    pub high: i64,
}

impl Wide {
    /// The number.
    #[inline(always)]
    pub fn number(&self) -> i128 {
        self.high as i128 * (1 << 64) + self.low as i128
    }

    /// The halves of a number.
    #[inline(always)]
    pub fn of(n: i128) -> Wide {
        let high = n.div_euclid(1 << 64);
        Wide {
            low: (n - high * (1 << 64)) as u64,
            high: high as i64,
        }
    }
}
