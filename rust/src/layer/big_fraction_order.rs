//! Copies of `BigFraction`, equality, the order, and the hash: equality and order also beside a whole number, a `Ratio` or a `Reduced`. The hash
//! takes no memory, nor does equality, but beside a `Ratio`.
use super::big_fraction::{taken, BigFraction};
use super::big_fraction_operand::Hidden;
use super::integer::Integer;
use super::ratio::Ratio;
use super::reduced::Reduced;
use core::cmp::Ordering;
use core::hash::{Hash, Hasher};

impl Clone for BigFraction {
    /// # Panics
    ///
    /// For want of memory.
    #[inline]
    #[track_caller]
    fn clone(&self) -> BigFraction {
        taken(self.try_clone())
    }
}

impl PartialEq for BigFraction {
    #[inline]
    fn eq(&self, other: &BigFraction) -> bool {
        self.0 == other.0
    }
}

impl Eq for BigFraction {}

impl PartialOrd for BigFraction {
    /// # Panics
    ///
    /// As `cmp`.
    #[inline]
    #[track_caller]
    fn partial_cmp(&self, other: &BigFraction) -> Option<Ordering> {
        Some(self.cmp(other))
    }
}

impl Ord for BigFraction {
    /// # Panics
    ///
    /// For want of memory. Two fractions of `i64` need none.
    #[inline]
    #[track_caller]
    fn cmp(&self, other: &BigFraction) -> Ordering {
        taken(self.try_cmp(other))
    }
}

/// A fraction of `i64` has the hash of the same `Reduced64`.
impl Hash for BigFraction {
    #[inline]
    fn hash<H: Hasher>(&self, state: &mut H) {
        self.0.hash(state);
    }
}

// On the left of `==` and `<`, neither a number nor a `Ratio` takes a `BigFraction`: with a second type on the right, `n == text.parse().unwrap()`
// and `x == Zero::zero()` would no longer compile in programs that have no `BigFraction`.

impl<T: Integer> PartialEq<T> for BigFraction {
    #[inline]
    fn eq(&self, other: &T) -> bool {
        *self == Reduced::from_integer(*other)
    }
}

impl<T: Integer> PartialEq<Reduced<T>> for BigFraction {
    #[inline]
    fn eq(&self, other: &Reduced<T>) -> bool {
        Reduced::try_from(self) == Ok(*other)
    }
}

impl<T: Integer> PartialEq<Ratio<T>> for BigFraction {
    /// Whether the two have the same value. A `Ratio` with the denominator 0 has none, so it is equal to no `BigFraction`.
    ///
    /// # Panics
    ///
    /// For want of memory. Two numbers that fit an `i64` need none.
    #[inline]
    #[track_caller]
    fn eq(&self, other: &Ratio<T>) -> bool {
        taken(other.bakhsney_to(|other| Ok(self == other))).unwrap_or(false)
    }
}

macro_rules! orders {
    ($($Other:ty)*) => {$(
        impl<T: Integer> PartialOrd<$Other> for BigFraction {
            /// The order of the values. It is `None` only beside a `Ratio` with the denominator 0.
            ///
            /// # Panics
            ///
            /// For want of memory. Numbers that fit an `i64` need none.
            #[inline]
            #[track_caller]
            fn partial_cmp(&self, other: &$Other) -> Option<Ordering> {
                taken(other.bakhsney_to(|other| self.try_cmp(other)))
            }
        }
    )*};
}

orders! { T Reduced<T> Ratio<T> }

impl<T: Integer> PartialEq<BigFraction> for Reduced<T> {
    #[inline]
    fn eq(&self, other: &BigFraction) -> bool {
        other == self
    }
}

impl<T: Integer> PartialOrd<BigFraction> for Reduced<T> {
    /// # Panics
    ///
    /// For want of memory. Numbers that fit an `i64` need none.
    #[inline]
    #[track_caller]
    fn partial_cmp(&self, other: &BigFraction) -> Option<Ordering> {
        other.partial_cmp(self).map(Ordering::reverse)
    }
}
