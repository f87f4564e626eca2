// Erased from crates/ratio_decimal/src/float/format.rt by rust/erase: not to be edited.
//! The trait `FloatType`: the bits, the limits and the quotients of `f64` and `f32`, as the rounding needs them.

/// A type of floats: `f64` or `f32`.
pub trait FloatType: Copy {
    /// How many binary digits a float has, with the leading one.
    const DIGITS: u64;

    /// The least float above 0 is 1 over 2 to this power.
    const LEAST: u64;

    /// The bits of infinity. Those of a finite float without a sign are less.
    const INFINITY: u64;

    /// The bit of the sign, above all others.
    const SIGN: u64;

    /// Whether the float is no number.
    fn is_no_number(self) -> bool;

    /// The bits of the float.
    ///
    /// # Conditions
    ///
    /// The proof requires of the caller:
    ///
    /// - `is_nan (value self) ≡ false`
    fn bits(self) -> u64;

    /// The float of these bits and of this sign.
    ///
    /// # Conditions
    ///
    /// The proof requires of the caller:
    ///
    /// - `bits ≤ ones format * hid format`
    fn of_bits(bits: u64, is_negative: bool) -> Self;

    /// The quotient, rounded once. Both numbers are floats, so that their conversion is exact.
    ///
    /// # Conditions
    ///
    /// The proof requires of the caller:
    ///
    /// - `n_exact`: `unsigned_abs n < 2 ^ DIGITS`
    /// - `d_exact`: `unsigned_abs d < 2 ^ DIGITS`
    /// - `d_positive`: `pos 0 <ℤ d`
    fn quotient(n: i64, d: i64) -> Self;
}

impl FloatType for f64 {
    const DIGITS: u64 = 53;

    const LEAST: u64 = 1074;

    const INFINITY: u64 = 0x7ff0_0000_0000_0000;

    const SIGN: u64 = 0x8000_0000_0000_0000;

    #[inline]
    fn is_no_number(self) -> bool {
        self.is_nan()
    }

    #[inline]
    fn bits(self) -> u64 {
        self.to_bits()
    }

    #[inline]
    fn of_bits(bits: u64, is_negative: bool) -> f64 {
        f64::from_bits(bits + ((is_negative as u64) << 63))
    }

    #[inline]
    fn quotient(n: i64, d: i64) -> f64 {
        n as f64 / d as f64
    }
}

impl FloatType for f32 {
    const DIGITS: u64 = 24;

    const LEAST: u64 = 149;

    const INFINITY: u64 = 0x7f80_0000;

    const SIGN: u64 = 0x8000_0000;

    #[inline]
    fn is_no_number(self) -> bool {
        self.is_nan()
    }

    #[inline]
    fn bits(self) -> u64 {
        self.to_bits() as u64
    }

    #[inline]
    fn of_bits(bits: u64, is_negative: bool) -> f32 {
        f32::from_bits(bits as u32 + ((is_negative as u32) << 31))
    }

    #[inline]
    fn quotient(n: i64, d: i64) -> f32 {
        n as f32 / d as f32
    }
}
