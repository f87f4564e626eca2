// Erased from crates/num_rational/src/reduced/traits.rt by rust/erase: not to be edited.
//! The impls of std's traits for `Reduced`: `Clone`, `From`, order, `Hash`, `FromStr`, `Display` and other formats.
//!
//! `printing.rt` says when the clauses of `Display`, and of the other traits that print, hold.

use super::Reduced;
use crate::proved::num_rational::printing::write_with_places;
use crate::proved::num_rational::ratio::Ratio;
use crate::proved::ratio_core::ParseRatioError;
use crate::proved::ratio_integer::{Integer, Primitive};

use core::cmp::Ordering;
use core::fmt;
use core::fmt::{Binary, Display, Formatter, LowerHex, Octal, UpperHex, Write};
use core::hash::{Hash, Hasher};
use core::str::FromStr;

impl<T: Copy + Integer> Clone for Reduced<T> {
    #[inline]
    fn clone(&self) -> Reduced<T> {
        *self
    }
}

impl<T: Copy + Integer> Default for Reduced<T> {
    #[inline]
    fn default() -> Reduced<T> {
        Reduced::zero()
    }
}

impl<T: Copy + Integer> From<T> for Reduced<T> {
    #[inline]
    fn from(t: T) -> Reduced<T> {
        Reduced::from_integer(t)
    }
}

impl<T: Copy + Integer> From<Reduced<T>> for Ratio<T> {
    #[inline]
    fn from(x: Reduced<T>) -> Ratio<T> {
        x.to_ratio()
    }
}

/// Whether the fields are equal.
#[inline]
fn same_fields<T: Copy + Integer>(x: &Reduced<T>, y: &Reduced<T>) -> bool {
    *x.numer() == *y.numer() && *x.denom() == *y.denom()
}

impl<T: Copy + Integer> PartialEq for Reduced<T> {
    /// Whether the fields are equal. In lowest terms, that is whether the values are equal.
    #[inline]
    fn eq(&self, other: &Reduced<T>) -> bool {
        same_fields(self, other)
    }
}

impl<T: Copy + Integer> Eq for Reduced<T> {
}

impl<T: Copy + Integer> PartialOrd for Reduced<T> {
    #[inline]
    fn partial_cmp(&self, other: &Reduced<T>) -> Option<Ordering> {
        Some(self.cmp(other))
    }
}

impl<T: Copy + Integer> Ord for Reduced<T> {
    #[inline]
    fn cmp(&self, other: &Reduced<T>) -> Ordering {
        self.ratio.cmp(&other.ratio)
    }
}

impl<T: Copy + Integer> Hash for Reduced<T> {
    /// Feeds the hasher with the two fields, each by the element's own hash.
    #[inline]
    fn hash<H: Hasher>(&self, state: &mut H) {
        self.numer().hash(state);
        self.denom().hash(state);
    }
}

impl<T: Primitive> FromStr for Reduced<T> {
    type Err = ParseRatioError;

    #[inline]
    fn from_str(text: &str) -> Result<Reduced<T>, ParseRatioError> {
        Reduced::<T>::from_str(text)
    }
}

impl<T: Primitive> Display for Reduced<T> {
    #[inline]
    fn fmt(&self, f: &mut Formatter<'_>) -> fmt::Result {
        match f.precision() {
            None => Display::fmt(&self.ratio, f),
            Some(places) => write_with_places(*self.numer(), *self.denom(), places, f),
        }
    }
}

impl<T: Primitive> Binary for Reduced<T> {
    #[inline]
    fn fmt(&self, f: &mut Formatter<'_>) -> fmt::Result {
        Binary::fmt(&self.ratio, f)
    }
}

impl<T: Primitive> Octal for Reduced<T> {
    #[inline]
    fn fmt(&self, f: &mut Formatter<'_>) -> fmt::Result {
        Octal::fmt(&self.ratio, f)
    }
}

impl<T: Primitive> LowerHex for Reduced<T> {
    #[inline]
    fn fmt(&self, f: &mut Formatter<'_>) -> fmt::Result {
        LowerHex::fmt(&self.ratio, f)
    }
}

impl<T: Primitive> UpperHex for Reduced<T> {
    #[inline]
    fn fmt(&self, f: &mut Formatter<'_>) -> fmt::Result {
        UpperHex::fmt(&self.ratio, f)
    }
}
