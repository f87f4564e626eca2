// Erased from crates/ratio_c/src/rounded.rt by rust/erase: not to be edited.
//! Fractions, products and quotients rounded by a rule to a whole number or to a multiple of `1/parts`, and the rules by their numbers.

use crate::proved::ratio_c::arithmetic::both;
use crate::proved::ratio_c::code::{
    BAD_OPTION, DENOMINATOR_NOT_POSITIVE, DIVISION_BY_ZERO, NOT_HELD, RULE_CEIL, RULE_DOWN,
    RULE_FLOOR, RULE_HALF_AWAY, RULE_HALF_EVEN, RULE_UP,
};
use crate::proved::ratio_c::crossing::{Parted, PartedPair, Reply, RuledPair, checked, refused, whole};
use crate::proved::ratio_c::each::Call;
use crate::proved::ratio_c::one_fraction::positive;
use bakhsney::proved::ratio_decimal::rounding_rule::Rounding;
use bakhsney::proved::ratio_decimal::{round_to, rounded_product, rounded_product_to, rounded_quotient_to};
use bakhsney::proved::ratio_integer::Integer;

/// The multiple of `1/parts` that the rule says: 2/3 to 100 by `RULE_HALF_EVEN` gives 67/100.
#[derive(Clone, Copy)]
pub struct RoundingTo;

impl<F: Parted, A: Reply<F::Inside>> Call<F, A> for RoundingTo {
    #[inline(always)]
    fn answer(&self, x: &F) -> A {
        let parts = x.parts();
        match positive(x) {
            Some((n, d)) => match options(parts, x.rule()) {
                Some(rule) => checked(round_to(n, d, parts, rule)),
                None => refused(BAD_OPTION),
            },
            None => refused(DENOMINATOR_NOT_POSITIVE),
        }
    }
}

/// The rule of a number, if there is such a rule and the parts are positive.
#[inline(always)]
pub fn options<T: Integer>(parts: T, rule: u32) -> Option<Rounding> {
    if T::ZERO < parts { rule_of(rule) } else { None }
}

/// The rule of a number, or `None` if there is no such rule.
#[inline]
pub fn rule_of(number: u32) -> Option<Rounding> {
    match number {
        RULE_HALF_AWAY => Some(Rounding::HalfAway),
        RULE_HALF_EVEN => Some(Rounding::HalfEven),
        RULE_DOWN => Some(Rounding::Down),
        RULE_UP => Some(Rounding::Up),
        RULE_FLOOR => Some(Rounding::Floor),
        RULE_CEIL => Some(Rounding::Ceil),
        _ => None,
    }
}

/// The multiple of `1/parts` that the rule gives of the product: 1999/100 times 5/2 to 100 by `RULE_HALF_EVEN` gives
/// 2499/50.
#[derive(Clone, Copy)]
pub struct ProductTo;

impl<P: PartedPair, A: Reply<P::Inside>> Call<P, A> for ProductTo {
    #[inline(always)]
    fn answer(&self, pair: &P) -> A {
        let parts = pair.parts();
        match both(pair) {
            Some((a, b, c, d)) => match options(parts, pair.rule()) {
                Some(rule) => checked(rounded_product_to(a, b, c, d, parts, rule)),
                None => refused(BAD_OPTION),
            },
            None => refused(DENOMINATOR_NOT_POSITIVE),
        }
    }
}

/// The multiple of `1/parts` that the rule gives of the quotient: 1999/100 by 2/5 to 100 by `RULE_HALF_EVEN` gives
/// 2499/50.
#[derive(Clone, Copy)]
pub struct QuotientTo;

impl<P: PartedPair, A: Reply<P::Inside>> Call<P, A> for QuotientTo {
    #[inline(always)]
    fn answer(&self, pair: &P) -> A {
        let parts = pair.parts();
        match both(pair) {
            Some((a, b, c, d)) => match options(parts, pair.rule()) {
                Some(_) if c.is_zero() => refused(DIVISION_BY_ZERO),
                Some(rule) => checked(rounded_quotient_to(a, b, c, d, parts, rule)),
                None => refused(BAD_OPTION),
            },
            None => refused(DENOMINATOR_NOT_POSITIVE),
        }
    }
}

/// The whole number that the rule gives of the product, over 1: 7/3 times 5/2 by `RULE_HALF_EVEN` gives 6/1.
#[derive(Clone, Copy)]
pub struct RoundedProduct;

impl<P: RuledPair, A: Reply<P::Inside>> Call<P, A> for RoundedProduct {
    #[inline(always)]
    fn answer(&self, pair: &P) -> A {
        match both(pair) {
            Some((a, b, c, d)) => match rule_of(pair.rule()) {
                Some(rule) => match rounded_product(a, b, c, d, rule) {
                    Some(n) => whole(n),
                    None => refused(NOT_HELD),
                },
                None => refused(BAD_OPTION),
            },
            None => refused(DENOMINATOR_NOT_POSITIVE),
        }
    }
}
