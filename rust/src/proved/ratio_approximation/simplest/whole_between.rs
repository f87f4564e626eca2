// Erased from crates/ratio_approximation/src/simplest/whole_between.rt by rust/erase: not to be edited.
//! Whole numbers between two ends: the last one below an end, and the one nearest to 0.

use crate::proved::ratio_core::order::dividing::divide_right;
use crate::proved::ratio_core::{Counted, Steps};

/// The greatest whole number below `m/e`, and what `m` is above it times `e`. For 7/3 they are 2 and
/// 1, for 6/3 they are 1 and 3. `None` only if no number of the type is below `m/e`. It takes a division
/// of the right side.
///
/// # Conditions
///
/// The proof requires of the caller:
///
/// - `pos 0 <ℤ T.value e`
#[inline]
pub(crate) fn last_below<T: Counted>(m: T, e: T, steps: &mut Steps) -> Option<(T, T)> {
    let (floor, rest) = divide_right(m, e, steps);
    if rest.is_zero() {
        let last = floor.try_minus(T::ONE)?;
        Some((last, e))
    } else {
        Some((floor, rest))
    }
}

/// The whole number nearest to 0 from `first` to `last`.
///
/// # Conditions
///
/// The proof requires of the caller:
///
/// - `T.value first ≤ℤ T.value last`
#[inline]
pub(crate) fn nearest_zero<T: Counted>(first: T, last: T) -> T {
    if T::ZERO < first {
        first
    } else if last < T::ZERO {
        last
    } else {
        T::ZERO
    }
}
