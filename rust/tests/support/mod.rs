//! Numbers for the sweeps. Each run has the same ones.

/// A sequence of numbers, by the method splitmix64.
pub struct Numbers(pub u64);

impl Numbers {
    pub fn word(&mut self) -> u64 {
        self.0 = self.0.wrapping_add(0x9e37_79b9_7f4a_7c15);
        let mut word = self.0;
        word = (word ^ (word >> 30)).wrapping_mul(0xbf58_476d_1ce4_e5b9);
        word = (word ^ (word >> 27)).wrapping_mul(0x94d0_49bb_1331_11eb);
        word ^ (word >> 31)
    }

    pub fn below(&mut self, end: u64) -> u64 {
        self.word() % end
    }

    pub fn wide(&mut self) -> u128 {
        u128::from(self.word()) << 64 | u128::from(self.word())
    }

    /// A number of as many binary digits as the dice say: any number, a power of two, or a neighbour of such a power.
    #[allow(dead_code)]
    pub fn of_any_length(&mut self) -> u128 {
        let shift = self.below(128);
        match self.below(6) {
            0 => 1 << shift,
            1 => (1 << shift) - 1,
            2 => (1 << shift) + 1,
            _ => self.wide() >> shift,
        }
    }
}

/// Hands a macro a name and a type for each of the twelve machine types.
#[allow(unused_macros)]
macro_rules! each_type {
    ($sweep:ident) => {
        $sweep! {
            over_i8 i8;
            over_i16 i16;
            over_i32 i32;
            over_i64 i64;
            over_i128 i128;
            over_isize isize;
            over_u8 u8;
            over_u16 u16;
            over_u32 u32;
            over_u64 u64;
            over_u128 u128;
            over_usize usize;
        }
    };
}

/// A test for each quarter of the rows, so that the quarters run side by side: it walks the rows whose place leaves this rest.
#[allow(unused_macros)]
macro_rules! quarters {
    ($walk:ident $($name:ident $rest:literal;)*) => {$(
        #[test]
        fn $name() {
            $walk($rest);
        }
    )*};
}
