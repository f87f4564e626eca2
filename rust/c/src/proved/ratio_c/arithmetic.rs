// Erased from crates/ratio_c/src/arithmetic.rt by rust/erase: not to be edited.
//! The sum, difference, product, quotient and remainder of a pair of fractions, and whether both denominators are positive.

use crate::proved::ratio_c::code::{DENOMINATOR_NOT_POSITIVE, DIVISION_BY_ZERO};
use crate::proved::ratio_c::crossing::{Reply, TwoFractions, checked, refused};
use crate::proved::ratio_c::each::Call;
use bakhsney::proved::ratio_core::{products, remainder, sums};
use bakhsney::proved::ratio_integer::Integer;

/// The four numbers of a pair, if both denominators are positive.
#[inline(always)]
pub(crate) fn both<P: TwoFractions>(
    pair: &P,
) -> Option<(P::Inside, P::Inside, P::Inside, P::Inside)> {
    let (a, b) = pair.left();
    let (c, d) = pair.right();
    if P::Inside::ZERO < b && P::Inside::ZERO < d {
        Some((a, b, c, d))
    } else {
        None
    }
}

/// The sum of two fractions.
#[derive(Clone, Copy)]
pub struct Sum;

impl<P: TwoFractions, A: Reply<P::Inside>> Call<P, A> for Sum {
    #[inline(always)]
    fn answer(&self, pair: &P) -> A {
        match both(pair) {
            Some((a, b, c, d)) => checked(sums::unreduced_sums::checked_add(a, b, c, d)),
            None => refused(DENOMINATOR_NOT_POSITIVE),
        }
    }
}

/// The difference of two fractions.
#[derive(Clone, Copy)]
pub struct Difference;

impl<P: TwoFractions, A: Reply<P::Inside>> Call<P, A> for Difference {
    #[inline(always)]
    fn answer(&self, pair: &P) -> A {
        match both(pair) {
            Some((a, b, c, d)) => checked(sums::unreduced_sums::checked_sub(a, b, c, d)),
            None => refused(DENOMINATOR_NOT_POSITIVE),
        }
    }
}

/// The product of two fractions.
#[derive(Clone, Copy)]
pub struct Product;

impl<P: TwoFractions, A: Reply<P::Inside>> Call<P, A> for Product {
    #[inline(always)]
    fn answer(&self, pair: &P) -> A {
        match both(pair) {
            Some((a, b, c, d)) => checked(products::checked_mul(a, b, c, d)),
            None => refused(DENOMINATOR_NOT_POSITIVE),
        }
    }
}

/// The quotient of two fractions.
#[derive(Clone, Copy)]
pub struct Quotient;

impl<P: TwoFractions, A: Reply<P::Inside>> Call<P, A> for Quotient {
    #[inline(always)]
    fn answer(&self, pair: &P) -> A {
        match both(pair) {
            Some(x) if x.2.is_zero() => refused(DIVISION_BY_ZERO),
            Some((a, b, c, d)) => checked(products::checked_div(a, b, c, d)),
            None => refused(DENOMINATOR_NOT_POSITIVE),
        }
    }
}

/// The remainder of a fraction by another one.
#[derive(Clone, Copy)]
pub struct Remainder;

impl<P: TwoFractions, A: Reply<P::Inside>> Call<P, A> for Remainder {
    #[inline(always)]
    fn answer(&self, pair: &P) -> A {
        match both(pair) {
            Some(x) if x.2.is_zero() => refused(DIVISION_BY_ZERO),
            Some((a, b, c, d)) => checked(remainder::unreduced_remainders::checked_rem(a, b, c, d)),
            None => refused(DENOMINATOR_NOT_POSITIVE),
        }
    }
}
