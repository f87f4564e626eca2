// Erased from crates/ratio_c/src/divisors.rt by rust/erase: not to be edited.
//! The greatest common divisor and the least common multiple of a pair of fractions.

use crate::proved::ratio_c::arithmetic::both;
use crate::proved::ratio_c::code::DENOMINATOR_NOT_POSITIVE;
use crate::proved::ratio_c::crossing::{Reply, TwoFractions, checked, refused};
use crate::proved::ratio_c::each::Call;
use bakhsney::proved::ratio_core::divisors;
use bakhsney::proved::ratio_integer::{Integer, lowest_terms};

/// The greatest fraction that divides both: 1/12 for 1/4 and 1/6.
#[derive(Clone, Copy)]
pub struct CommonDivisor;

impl<P: TwoFractions, A: Reply<P::Inside>> Call<P, A> for CommonDivisor {
    #[inline(always)]
    fn answer(&self, pair: &P) -> A {
        match both(pair) {
            Some((a, b, c, d)) => checked(gcd(a, b, c, d)),
            None => refused(DENOMINATOR_NOT_POSITIVE),
        }
    }
}

/// The least fraction above 0 that both divide: 1/2 for 1/4 and 1/6.
#[derive(Clone, Copy)]
pub struct CommonMultiple;

impl<P: TwoFractions, A: Reply<P::Inside>> Call<P, A> for CommonMultiple {
    #[inline(always)]
    fn answer(&self, pair: &P) -> A {
        match both(pair) {
            Some((a, b, c, d)) => checked(lcm(a, b, c, d)),
            None => refused(DENOMINATOR_NOT_POSITIVE),
        }
    }
}

// The greatest common divisor of two fractions in any terms.
#[inline]
fn gcd<T: Copy + Integer>(a: T, b: T, c: T, d: T) -> Option<(T, T)> {
    let (a, b) = lowest_terms(a, b);
    let (c, d) = lowest_terms(c, d);
    divisors::checked_gcd(a, b, c, d)
}

// The least common multiple of two fractions in any terms.
#[inline]
fn lcm<T: Copy + Integer>(a: T, b: T, c: T, d: T) -> Option<(T, T)> {
    let (a, b) = lowest_terms(a, b);
    let (c, d) = lowest_terms(c, d);
    divisors::checked_lcm(a, b, c, d)
}
