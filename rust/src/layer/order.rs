//! The order, the equality and the hash of fractions, by their values.
//!
//! `!=`, `<`, `<=`, `>` and `>=` are written out. Core's own have no caller, so a panic would name a line of core.
//!
//! A denominator of 0 gives no value to compare: `partial_cmp` then returns `None`, and the others panic.
use super::ratio::Ratio;
use super::same::on_machine;
use super::schoolbook;
use core::cmp::Ordering;
use core::hash::{Hash, Hasher};

#[allow(clippy::partialeq_ne_impl)]
impl<T: Clone + num_integer::Integer> PartialEq for Ratio<T> {
    /// # Panics
    ///
    /// If a denominator is 0.
    #[inline]
    #[track_caller]
    fn eq(&self, other: &Ratio<T>) -> bool {
        on_machine!(T, same => same.fraction(self).proved() == same.fraction(other).proved());
        schoolbook::cmp(self, other).is_eq()
    }

    /// # Panics
    ///
    /// If a denominator is 0.
    #[inline]
    #[track_caller]
    fn ne(&self, other: &Ratio<T>) -> bool {
        !self.eq(other)
    }
}

impl<T: Clone + num_integer::Integer> Eq for Ratio<T> {}

// It is not `Some(self.cmp(other))`, which would panic.
#[allow(clippy::non_canonical_partial_ord_impl)]
impl<T: Clone + num_integer::Integer> PartialOrd for Ratio<T> {
    /// The order of the values, or `None` if a denominator is 0.
    #[inline]
    fn partial_cmp(&self, other: &Ratio<T>) -> Option<Ordering> {
        on_machine!(T, same => Some(same.fraction(self).checked_proved()?.cmp(&same.fraction(other).checked_proved()?)));
        Some(schoolbook::cmp(self, other))
    }

    /// # Panics
    ///
    /// If a denominator is 0.
    #[inline]
    #[track_caller]
    fn lt(&self, other: &Ratio<T>) -> bool {
        self.cmp(other).is_lt()
    }

    /// # Panics
    ///
    /// If a denominator is 0.
    #[inline]
    #[track_caller]
    fn le(&self, other: &Ratio<T>) -> bool {
        self.cmp(other).is_le()
    }

    /// # Panics
    ///
    /// If a denominator is 0.
    #[inline]
    #[track_caller]
    fn gt(&self, other: &Ratio<T>) -> bool {
        self.cmp(other).is_gt()
    }

    /// # Panics
    ///
    /// If a denominator is 0.
    #[inline]
    #[track_caller]
    fn ge(&self, other: &Ratio<T>) -> bool {
        self.cmp(other).is_ge()
    }
}

impl<T: Clone + num_integer::Integer> Ord for Ratio<T> {
    /// # Panics
    ///
    /// If a denominator is 0.
    #[inline]
    #[track_caller]
    fn cmp(&self, other: &Ratio<T>) -> Ordering {
        on_machine!(T, same => same.fraction(self).proved().cmp(&same.fraction(other).proved()));
        schoolbook::cmp(self, other)
    }
}

impl<T: Clone + num_integer::Integer + Hash> Hash for Ratio<T> {
    /// # Panics
    ///
    /// If the denominator is 0.
    #[inline]
    #[track_caller]
    fn hash<H: Hasher>(&self, state: &mut H) {
        on_machine!(T, same => same.fraction(self).proved().hash(state));
        schoolbook::hash(self, state);
    }
}
