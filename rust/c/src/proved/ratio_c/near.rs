// Erased from crates/ratio_c/src/near.rt by rust/erase: not to be edited.
//! Fractions near others: the simplest one within two bounds, which flags describe, the nearest one with a bounded denominator, and the
//! convergents of a fraction, each by its place.

use crate::proved::ratio_c::code::{
    BAD_OPTION, BOUND_NOT_POSITIVE, DENOMINATOR_NOT_POSITIVE, HIGH_INCLUDED, HIGH_OPEN,
    LOW_INCLUDED, LOW_OPEN,
};
use crate::proved::ratio_c::crossing::{Bounded, FlaggedBounds, Placed, Reply, checked, refused};
use crate::proved::ratio_c::each::Call;
use crate::proved::ratio_c::one_fraction::positive;
use bakhsney::proved::num_rational::Reduced;
use bakhsney::proved::ratio_approximation::nearest::nearest;
use bakhsney::proved::ratio_approximation::simplest::simplest_within;
use bakhsney::proved::ratio_integer::Integer;
use core::ops::Bound;

/// The fraction with the smallest denominator within the bounds. Without flags neither bound is included: 1/3 and 1/2 give
/// 2/5. With both included they give 1/2.
#[derive(Clone, Copy)]
pub struct Between;

impl<P: FlaggedBounds, A: Reply<P::Inside>> Call<P, A> for Between {
    #[inline(always)]
    fn answer(&self, pair: &P) -> A {
        match bounds(pair) {
            Some((low, high)) if are_flags(pair.flags()) => { checked(simplest_within(low, high)) }
            Some(_) => refused(BAD_OPTION),
            None => refused(DENOMINATOR_NOT_POSITIVE),
        }
    }
}

/// Both bounds, or `None` if the denominator of one is not positive.
#[inline(always)]
fn bounds<P: FlaggedBounds>(
    pair: &P,
) -> Option<(Bound<(P::Inside, P::Inside)>, Bound<(P::Inside, P::Inside)>)> {
    let flags = pair.flags();
    let low = bound(flags, LOW_INCLUDED, LOW_OPEN, pair.left())?;
    let high = bound(flags, HIGH_INCLUDED, HIGH_OPEN, pair.right())?;
    Some((low, high))
}

/// The bound that two flags say, or `None` if its denominator is not positive. The numbers of an open bound are not used.
///
/// # Conditions
///
/// The proof requires of the caller:
///
/// - `included`: `0 < included`
/// - `unbounded`: `0 < unbounded`
#[inline]
fn bound<T: Copy + Integer>(
    flags: u32,
    included: u32,
    unbounded: u32,
    x: (T, T),
) -> Option<Bound<(T, T)>> {
    if has_flag(flags, unbounded) {
        return Some(Bound::Unbounded);
    }
    if x.1 <= T::ZERO {
        return None;
    }
    if has_flag(flags, included) {
        Some(Bound::Included(x))
    } else {
        Some(Bound::Excluded(x))
    }
}

/// Whether the flag is one of these.
///
/// # Conditions
///
/// The proof requires of the caller:
///
/// - `0 < flag`
#[inline]
fn has_flag(flags: u32, flag: u32) -> bool {
    flags / flag % 2 == 1
}

/// Whether there is no other flag, and no bound is both included and open.
#[inline]
fn are_flags(flags: u32) -> bool {
    let low = has_flag(flags, LOW_INCLUDED) && has_flag(flags, LOW_OPEN);
    let high = has_flag(flags, HIGH_INCLUDED) && has_flag(flags, HIGH_OPEN);
    flags < 16 && !low && !high
}

/// The nearest fraction with a denominator from 1 to the bound: 355/113 within 10 gives 22/7.
#[derive(Clone, Copy)]
pub struct Nearest;

impl<F: Bounded, A: Reply<F::Inside>> Call<F, A> for Nearest {
    #[inline(always)]
    fn answer(&self, x: &F) -> A {
        let most = x.most();
        match positive(x) {
            Some((n, d)) if F::Inside::ZERO < most => checked(Some(nearest(n, d, most))),
            Some(_) => refused(BOUND_NOT_POSITIVE),
            None => refused(DENOMINATOR_NOT_POSITIVE),
        }
    }
}

/// The convergent at a place, from 0 on: 415/93 has 4/1, 9/2, 58/13 and 415/93.
#[derive(Clone, Copy)]
pub struct ConvergentAt;

impl<F: Placed, A: Reply<F::Inside>> Call<F, A> for ConvergentAt {
    #[inline(always)]
    fn answer(&self, x: &F) -> A {
        match positive(x) {
            Some((n, d)) => checked(convergent(n, d, x.place())),
            None => refused(DENOMINATOR_NOT_POSITIVE),
        }
    }
}

/// The convergent at a place, or `None` if there are not so many.
///
/// # Conditions
///
/// The proof requires of the caller:
///
/// - `pos 0 <ℤ T.value d`
#[inline]
fn convergent<T: Copy + Integer>(n: T, d: T, place: u32) -> Option<(T, T)> {
    let lowest = Reduced::checked_new(n, d)?;
    let found = lowest.convergents().nth(place as usize)?;
    Some(found.into_raw())
}
