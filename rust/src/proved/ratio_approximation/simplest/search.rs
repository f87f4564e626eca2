// Erased from crates/ratio_approximation/src/simplest/search.rt by rust/erase: not to be edited.
//! The search for the simplest fraction, between two neighbours around both ends.

use crate::proved::ratio_approximation::simplest::side::{Side, beyond, stepped, times_within};
use crate::proved::ratio_core::order::dividing::divide_left;
use crate::proved::ratio_core::{Counted, Steps};

/// The simplest fraction strictly between `n/d` and `m/e`, from two neighbours around both. One of them
/// moves towards the other as long as it does not pass its own end, and then the other one moves. The
/// first step to a place between both ends leads to the simplest fraction.
///
/// It divides as often as the search between `left.own / (left.own + right.other)` and
/// `left.other / (left.other + right.own)`, without the first divisions of that search. For 1/3 and 1/2, with the
/// neighbours 0/1 and 1/1, these two are 1/3 and 1/2 again.
///
/// # Conditions
///
/// The proof requires of the caller:
///
/// - `low`: `pos 0 <ℤ T.value d`
/// - `high`: `pos 0 <ℤ T.value e`
/// - `enclosed`: `Encloses (T.value n) (T.value d) (T.value m) (T.value e) (T.value left.numer) (T.value left.denom) (T.value left.own) (T.value left.other) (T.value right.numer) (T.value right.denom) (T.value right.own) (T.value right.other)`
#[inline]
pub(crate) fn search<T: Counted>(
    n: T,
    d: T,
    m: T,
    e: T,
    left: Side<T>,
    right: Side<T>,
    steps: &mut Steps,
) -> Option<(T, T)> {
    let mut moving = left;
    let mut fixed = right;
    if left.own < right.other {
        moving = right;
        fixed = left;
    }
    loop {
        let (whole, rest) = divide_left(moving.own, fixed.other, steps);
        if fixed.own.is_zero() {
            return beyond(moving, fixed, whole);
        }
        let room = times_within(moving.other, fixed.own, steps);
        if whole < room {
            return beyond(moving, fixed, whole);
        }
        if room < whole {
            return None;
        }
        let next = stepped(moving, fixed, whole, rest);
        moving = fixed;
        fixed = next;
    }
}
