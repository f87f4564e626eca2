// Erased from crates/ratio_core/src/hash.rt by rust/erase: not to be edited.
//! The codes by which a fraction is hashed: handed to a `CodeList` while the steps are counted, and kept for contracts in a `Taken`.

use crate::proved::ratio_core::counted::Counted;
use crate::proved::ratio_core::order::dividing::{divide_left, is_above_max};
use crate::proved::ratio_core::steps::Steps;
use crate::proved::ratio_integer::Integer;

/// A list that takes integers at its end: an array that keeps them, or a hasher that is fed with them.
/// Contracts see all numbers that it has taken. A list that does not keep its numbers has a `Taken` for them.
pub trait CodeList<T: Counted> {
    /// Takes `t` at the end.
    fn take(&mut self, t: T);
}

/// The numbers of all codes that a list has taken, in their order. It takes no memory. A list that keeps no
/// codes, such as one over a hasher, has a `Taken` for them.
pub struct Taken {}

const _: () = assert!(core::mem::size_of::<Taken>() == 0);

impl Taken {
    /// No code yet.
    #[inline]
    pub fn none() -> Taken {
        Taken {}
    }

    /// Adds one code at the end.
    #[inline]
    pub fn note<T: Integer>(&mut self, _t: &T) {}
}

/// Hands the codes of `n/d` to `list`: the quotients of its continued fraction, and then 0. The codes of 7/3
/// are 2, 3 and 0. The quotient `hi + 1`, which does not fit the type, is written as the least number, twice.
///
/// Fractions of the same value have the same codes, reduced or not, with a denominator of either sign.
/// Fractions of different values have different codes.
///
/// # Conditions
///
/// The proof requires of the caller:
///
/// - `T.value d ≢ pos 0`
#[inline]
pub fn hash_counted<T: Counted, L: CodeList<T>>(n: T, d: T, list: &mut L, steps: &mut Steps) {
    take_codes(n, d, list, steps);
}

/// Euclid's algorithm: hands each quotient to `list`.
///
/// # Conditions
///
/// The proof requires of the caller:
///
/// - `T.value d ≢ pos 0`
#[inline]
fn take_codes<T: Counted, L: CodeList<T>>(n: T, d: T, list: &mut L, steps: &mut Steps) {
    let mut numer = n;
    let mut denom = d;
    while !is_above_max(numer, denom) {
        // A number over 1 is its own quotient: a step without a division.
        if denom.is_one() {
            steps.tick_left();
            list.take(numer);
            list.take(T::ZERO);
            return;
        }
        let (quotient, rest) = divide_left(numer, denom, steps);
        list.take(quotient);
        if rest.is_zero() {
            list.take(T::ZERO);
            return;
        }
        numer = denom;
        denom = rest;
    }
    // The value is `hi + 1`.
    take_both(list, T::MIN, T::MIN);
    list.take(T::ZERO);
}

/// Hands both to `list`, in this order.
#[inline]
fn take_both<T: Counted, L: CodeList<T>>(list: &mut L, first: T, second: T) {
    list.take(first);
    list.take(second);
}
