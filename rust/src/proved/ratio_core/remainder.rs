// Erased from crates/ratio_core/src/remainder.rt by rust/erase: not to be edited.
//! The remainder of one fraction by another in lowest terms, over any type.

pub mod lowest_remainders;
pub mod unreduced_remainders;
mod wide_remainder;

use crate::proved::ratio_core::sums::scaled;
use crate::proved::ratio_integer::{Integer, lowest_terms};

/// The lowest terms of `x - t*y`. Here `x` is `a/b`, `y` is `c/d`, and `t` is their quotient cut towards
/// zero: 3/4 by 1/2 leaves 1/4. The remainder is 0 or has the sign of `x`, and it is nearer to 0 than `y`.
///
/// The call returns `None` exactly if `c` is 0, or if the least common denominator or a numerator over it
/// does not fit the type. The fields are taken as they are, not reduced.
///
/// # Conditions
///
/// The proof requires of the caller:
///
/// - `left_positive`: `pos 0 <ℤ T.value b`
/// - `right_positive`: `pos 0 <ℤ T.value d`
#[inline]
pub fn checked_rem<T: Integer>(a: T, b: T, c: T, d: T) -> Option<(T, T)> {
    if c.is_zero() {
        return None;
    }
    let (left, right, common) = scaled(a, b, c, d)?;
    Some(lowest_terms(truncated_rest(left, right), common))
}

/// The remainder that `checked_rem` returns. It requires that `checked_rem` returns `Some`.
///
/// # Conditions
///
/// The proof requires of the caller:
///
/// - `left_positive`: `pos 0 <ℤ T.value b`
/// - `right_positive`: `pos 0 <ℤ T.value d`
/// - `answered`: `RemainderHeld T.lo T.hi (T.value a) (T.value b) (T.value c) (T.value d)`
#[inline]
pub fn rem<T: Integer>(a: T, b: T, c: T, d: T) -> (T, T) {
    match checked_rem(a, b, c, d) {
        Some(rest) => rest,
        None => unreachable!(),
    }
}

// The remainder of a division cut towards zero. Dividing the least number by -1 may overflow, so -1 is set aside.
#[inline]
fn truncated_rest<T: Integer>(p: T, q: T) -> T {
    if q < T::ZERO && q.plus(T::ONE).is_zero() {
        return T::ZERO;
    }
    p.div_rem(q).1
}
