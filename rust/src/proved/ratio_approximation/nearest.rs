// Erased from crates/ratio_approximation/src/nearest.rt by rust/erase: not to be edited.
//! The nearest fraction whose denominator is at most a bound.
mod neighbour;

use crate::proved::ratio_approximation::nearest::neighbour::{Neighbour, first_of, moved, steps_towards};
use crate::proved::ratio_core::order::dividing::divide_left;
use crate::proved::ratio_core::{Counted, Steps};
use crate::proved::ratio_integer::Integer;

/// The nearest fraction to `n/d` with a denominator from 1 to `most`, in lowest terms.
/// For 355/113 and 10 it is 22/7. Of two that are as near, it is the one with the smaller
/// denominator, and of two whole numbers the smaller one: for 1/2 and 1 it is 0/1.
///
/// # Conditions
///
/// The proof requires of the caller:
///
/// - `positive`: `pos 0 <ℤ T.value d`
/// - `room`: `pos 0 <ℤ T.value most`
#[inline]
pub fn nearest<T: Integer>(n: T, d: T, most: T) -> (T, T) {
    nearest_counted(n, d, most, &mut Steps::new())
}

/// `nearest` with its divisions counted, by Euclid's algorithm. The left side divides the rests of `n/d`, and the
/// right side divides the room below `most`.
///
/// The right side divides once for each convergent of `n/d` with a denominator of at most `most`, except for `n/d` itself.
/// The left side divides once more. For example, the convergents before 355/113 are 3/1 and 22/7. If `most` is 50, the
/// left side divides three times, and the right side twice. Each side divides at most twice for each binary digit of `d`.
///
/// # Conditions
///
/// The proof requires of the caller:
///
/// - `positive`: `pos 0 <ℤ T.value d`
/// - `room`: `pos 0 <ℤ T.value most`
#[inline]
pub fn nearest_counted<T: Counted>(n: T, d: T, most: T, steps: &mut Steps) -> (T, T) {
    let (floor, rest) = divide_left(n, d, steps);
    if rest.is_zero() {
        return (floor, T::ONE);
    }
    let mut fixed = Neighbour {
        numer: floor,
        denom: T::ONE,
        gap: rest,
    };
    let mut moving = Neighbour {
        numer: floor.plus(T::ONE),
        denom: T::ONE,
        gap: d.minus(rest),
    };
    loop {
        let (whole, room) = steps_towards(moving, fixed, most, steps);
        if room < whole {
            let last = moved(moving, fixed, room);
            let first = first_of(last, fixed);
            return (first.numer, first.denom);
        }
        let next = moved(moving, fixed, whole);
        if next.gap.is_zero() {
            return (next.numer, next.denom);
        }
        moving = fixed;
        fixed = next;
    }
}
