// Erased from crates/ratio_approximation/src/simplest/within/end.rt by rust/erase: not to be edited.
//! An `End` of a range of fractions: a bound, or the type's least or greatest number in place of an open one.

use crate::proved::ratio_integer::Integer;
use core::ops::Bound;

/// The fraction `numer/denom`, and whether it belongs to the range itself.
pub(crate) struct End<T: Copy + Integer> {
    pub(crate) numer: T,
    pub(crate) denom: T,
    pub(crate) included: bool,
}

/// The low end. If the bound is open, it is the least number of the type, included.
#[inline]
pub(crate) fn low_end<T: Integer>(bound: Bound<(T, T)>) -> End<T> {
    match bound {
        Bound::Included((numer, denom)) => End {
            numer,
            denom,
            included: true,
        },
        Bound::Excluded((numer, denom)) => End {
            numer,
            denom,
            included: false,
        },
        Bound::Unbounded => End {
            numer: T::MIN,
            denom: T::ONE,
            included: true,
        },
    }
}

/// The high end. If the bound is open, it is the greatest number of the type, included.
#[inline]
pub(crate) fn high_end<T: Integer>(bound: Bound<(T, T)>) -> End<T> {
    match bound {
        Bound::Included((numer, denom)) => End {
            numer,
            denom,
            included: true,
        },
        Bound::Excluded((numer, denom)) => End {
            numer,
            denom,
            included: false,
        },
        Bound::Unbounded => End {
            numer: T::MAX,
            denom: T::ONE,
            included: true,
        },
    }
}
