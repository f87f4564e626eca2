// Erased from crates/ratio_integer/src/negatives.rt by rust/erase: not to be edited.
// Written by templates/write from templates/negatives.rt.txt: change that file, and write this one anew.
//! The trait `SignedInteger` for the six signed types: negatives.
use crate::proved::ratio_integer::integer::SignedInteger;

impl SignedInteger for i8 {
    #[inline]
    fn negate(self) -> i8 {
        -self
    }

    #[inline]
    fn try_negate(self) -> Option<i8> {
        self.checked_neg()
    }
}

impl SignedInteger for i16 {
    #[inline]
    fn negate(self) -> i16 {
        -self
    }

    #[inline]
    fn try_negate(self) -> Option<i16> {
        self.checked_neg()
    }
}

impl SignedInteger for i32 {
    #[inline]
    fn negate(self) -> i32 {
        -self
    }

    #[inline]
    fn try_negate(self) -> Option<i32> {
        self.checked_neg()
    }
}

impl SignedInteger for i64 {
    #[inline]
    fn negate(self) -> i64 {
        -self
    }

    #[inline]
    fn try_negate(self) -> Option<i64> {
        self.checked_neg()
    }
}

impl SignedInteger for i128 {
    #[inline]
    fn negate(self) -> i128 {
        -self
    }

    #[inline]
    fn try_negate(self) -> Option<i128> {
        self.checked_neg()
    }
}

impl SignedInteger for isize {
    #[inline]
    fn negate(self) -> isize {
        -self
    }

    #[inline]
    fn try_negate(self) -> Option<isize> {
        self.checked_neg()
    }
}
