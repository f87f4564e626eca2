// Erased from crates/ratio_core/src/exponent.rt by rust/erase: not to be edited.
// Written by templates/write from templates/exponent.rt.txt: change that file, and write this one anew.
//! The trait `Exponent`: whole numbers of any primitive type that may be an exponent, by sign and magnitude.

/// A whole number that may be an exponent, of a magnitude below 2^128. The
/// twelve primitive integer types and references to them implement it.
pub trait Exponent: Copy {
    /// Whether the exponent is below 0.
    fn is_below_zero(&self) -> bool;

    /// The exponent without its sign, also for the least value of a type: 2^31 for `i32::MIN`.
    fn magnitude(&self) -> u128;
}

impl Exponent for i8 {
    #[inline]
    fn is_below_zero(&self) -> bool {
        *self < 0
    }

    #[inline]
    fn magnitude(&self) -> u128 {
        self.unsigned_abs() as u128
    }
}

impl Exponent for i16 {
    #[inline]
    fn is_below_zero(&self) -> bool {
        *self < 0
    }

    #[inline]
    fn magnitude(&self) -> u128 {
        self.unsigned_abs() as u128
    }
}

impl Exponent for i32 {
    #[inline]
    fn is_below_zero(&self) -> bool {
        *self < 0
    }

    #[inline]
    fn magnitude(&self) -> u128 {
        self.unsigned_abs() as u128
    }
}

impl Exponent for i64 {
    #[inline]
    fn is_below_zero(&self) -> bool {
        *self < 0
    }

    #[inline]
    fn magnitude(&self) -> u128 {
        self.unsigned_abs() as u128
    }
}

impl Exponent for i128 {
    #[inline]
    fn is_below_zero(&self) -> bool {
        *self < 0
    }

    #[inline]
    fn magnitude(&self) -> u128 {
        self.unsigned_abs()
    }
}

impl Exponent for isize {
    #[inline]
    fn is_below_zero(&self) -> bool {
        *self < 0
    }

    #[inline]
    fn magnitude(&self) -> u128 {
        self.unsigned_abs() as u128
    }
}

impl Exponent for u8 {
    #[inline]
    fn is_below_zero(&self) -> bool {
        false
    }

    #[inline]
    fn magnitude(&self) -> u128 {
        *self as u128
    }
}

impl Exponent for u16 {
    #[inline]
    fn is_below_zero(&self) -> bool {
        false
    }

    #[inline]
    fn magnitude(&self) -> u128 {
        *self as u128
    }
}

impl Exponent for u32 {
    #[inline]
    fn is_below_zero(&self) -> bool {
        false
    }

    #[inline]
    fn magnitude(&self) -> u128 {
        *self as u128
    }
}

impl Exponent for u64 {
    #[inline]
    fn is_below_zero(&self) -> bool {
        false
    }

    #[inline]
    fn magnitude(&self) -> u128 {
        *self as u128
    }
}

impl Exponent for u128 {
    #[inline]
    fn is_below_zero(&self) -> bool {
        false
    }

    #[inline]
    fn magnitude(&self) -> u128 {
        *self
    }
}

impl Exponent for usize {
    #[inline]
    fn is_below_zero(&self) -> bool {
        false
    }

    #[inline]
    fn magnitude(&self) -> u128 {
        *self as u128
    }
}

impl<E: Exponent> Exponent for &E {
    #[inline]
    fn is_below_zero(&self) -> bool {
        (**self).is_below_zero()
    }

    #[inline]
    fn magnitude(&self) -> u128 {
        (**self).magnitude()
    }
}
