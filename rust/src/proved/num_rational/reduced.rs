// Erased from crates/num_rational/src/reduced.rt by rust/erase: not to be edited.
//! `Reduced`, the fraction type that is always in lowest terms, and its methods: constructors, `zero` and `one`, fields, conversions such
//! as `to_u128`, the five checked calls, powers, divisors, products of many, rounding, fractions near others, continued fractions, signs
//! and casts.
//!
//! A contract sees such a fraction as the `Ratio` of its fields, by `ratio_of`. No named call requires anything of its caller,
//! except `decimal`, at most 38 places, and `round_to`, a positive number of parts.

mod texts;
mod traits;

use crate::proved::num_rational::continued::{Convergents, Quotients};
use crate::proved::num_rational::many_products::{cancelled_first, has_room, step_by_step};
use crate::proved::num_rational::operand::ReducedOperand;
use crate::proved::num_rational::ratio::{Constants, Ratio};
use crate::proved::ratio_approximation::from_quotients::from_quotients;
use crate::proved::ratio_approximation::simplest;
use crate::proved::ratio_core::{Exponent, divisors, pow, products, remainder, sums};
use crate::proved::ratio_decimal::rounding_rule::Rounding;
use crate::proved::ratio_decimal::{
    round_to, rounded_product, rounded_product_to, rounded_quotient, rounded_quotient_to,
};
use crate::proved::ratio_integer::{Integer, Primitive, SignedInteger};
use core::ops::Bound;

/// A fraction of two numbers of the type `T` that is always in lowest terms: its denominator is
/// positive, and no number above 1 divides both. No named call requires anything of its caller, except
/// `decimal`, at most 38 places, and `round_to`, a positive number of parts.
///
/// A call returns `None` only if there is no result, as for a divisor 0, or if its lowest terms do not fit
/// the type. There are two exceptions: `checked_rem`, over some types of one's own, and a sum or product of a
/// list, which is `None` if one of its steps is. `checked_product_of` gives each product of a list whose lowest
/// terms fit.
#[derive(Copy, Debug)]
pub struct Reduced<T: Copy + Integer> {
    pub(crate) ratio: Ratio<T>,
}

/// A fraction of two `i32` in lowest terms.
pub type Reduced32 = Reduced<i32>;

/// A fraction of two `i64` in lowest terms.
pub type Reduced64 = Reduced<i64>;

impl<T: Copy + Integer> Reduced<T> {
    /// The fraction `n/d`, or `None` if `d` is 0 or its lowest terms do not fit the type. Over `i8`, 2 and
    /// -128 give -1/64, and 1 and -128 give `None`, since 128 does not fit.
    #[inline]
    pub fn checked_new(n: T, d: T) -> Option<Reduced<T>> {
        match Ratio::checked_new(n, d) {
            Some(ratio) => Some(Reduced { ratio }),
            None => None,
        }
    }

    /// The lowest terms of a fraction, or `None` if they do not fit the type.
    #[inline]
    pub fn from_ratio(ratio: &Ratio<T>) -> Option<Reduced<T>> {
        Reduced::checked_new(*ratio.numer(), *ratio.denom())
    }

    /// This fraction as a `Ratio`.
    #[inline]
    pub fn to_ratio(&self) -> Ratio<T> {
        self.ratio
    }

    /// The whole number over 1, in lowest terms.
    #[inline]
    pub fn from_integer(t: T) -> Reduced<T> {
        Reduced {
            ratio: Ratio::from_integer(t),
        }
    }

    /// The fraction 0/1, in lowest terms.
    #[inline]
    pub fn zero() -> Reduced<T> {
        Reduced::from_integer(T::ZERO)
    }

    /// The fraction 1/1, in lowest terms.
    #[inline]
    pub fn one() -> Reduced<T> {
        Reduced::from_integer(T::ONE)
    }

    /// The numerator and the denominator of the lowest terms.
    #[inline]
    pub fn into_raw(self) -> (T, T) {
        self.ratio.into_raw()
    }

    /// The numerator of the lowest terms.
    #[inline]
    pub fn numer(&self) -> &T {
        &self.ratio.numer
    }

    /// The denominator. It is positive, and has no common divisor above 1 with the numerator.
    #[inline]
    pub fn denom(&self) -> &T {
        &self.ratio.denom
    }

    /// Whether the fraction is 0.
    #[inline]
    pub fn is_zero(&self) -> bool {
        self.ratio.is_zero()
    }

    /// Whether the fraction is a whole number.
    #[inline]
    pub fn is_integer(&self) -> bool {
        self.ratio.is_integer()
    }

    // Whole numbers of fixed types.

    /// The whole number over 1, or `None` if it does not fit the type.
    #[inline]
    pub fn from_i64(n: i64) -> Option<Reduced<T>> {
        Reduced::from_i128(n as i128)
    }

    /// The whole number over 1, or `None` if it does not fit the type.
    #[inline]
    pub fn from_i128(n: i128) -> Option<Reduced<T>> {
        match T::from_i128(n) {
            Some(t) => Some(Reduced::from_integer(t)),
            None => None,
        }
    }

    /// The whole number over 1, or `None` if it does not fit the type.
    #[inline]
    pub fn from_u64(n: u64) -> Option<Reduced<T>> {
        Reduced::from_u128(n as u128)
    }

    /// The whole number over 1, or `None` if it does not fit the type.
    #[inline]
    pub fn from_u128(n: u128) -> Option<Reduced<T>> {
        match T::from_u128(n) {
            Some(t) => Some(Reduced::from_integer(t)),
            None => None,
        }
    }

    // The five checked calls: sum, difference, product, quotient and remainder.

    /// The sum, or `None` if its lowest terms do not fit the type. Over `i8`, 1/36 + 1/28 is 4/63, though
    /// the least common denominator 252 does not fit. 127/1 + 1/127 is `None`.
    #[inline(always)]
    pub fn checked_add<O: ReducedOperand<T>>(&self, other: O) -> Option<Reduced<T>> {
        let (numer, denom) = other.reduced().into_raw();
        match sums::lowest_sums::checked_add(*self.numer(), *self.denom(), numer, denom) {
            Some((numer, denom)) => Some(Reduced {
                ratio: Ratio::new_raw(numer, denom),
            }),
            None => None,
        }
    }

    /// The difference, or `None` if its lowest terms do not fit the type.
    #[inline(always)]
    pub fn checked_sub<O: ReducedOperand<T>>(&self, other: O) -> Option<Reduced<T>> {
        let (numer, denom) = other.reduced().into_raw();
        match sums::lowest_sums::checked_sub(*self.numer(), *self.denom(), numer, denom) {
            Some((numer, denom)) => Some(Reduced {
                ratio: Ratio::new_raw(numer, denom),
            }),
            None => None,
        }
    }

    /// The product, or `None` if its lowest terms do not fit the type.
    #[inline]
    pub fn checked_mul<O: ReducedOperand<T>>(&self, other: O) -> Option<Reduced<T>> {
        let (numer, denom) = other.reduced().into_raw();
        match products::lowest_products::checked_mul(*self.numer(), *self.denom(), numer, denom) {
            Some((numer, denom)) => Some(Reduced {
                ratio: Ratio::new_raw(numer, denom),
            }),
            None => None,
        }
    }

    /// The quotient, or `None` if `other` is 0 or the lowest terms do not fit the type.
    #[inline]
    pub fn checked_div<O: ReducedOperand<T>>(&self, other: O) -> Option<Reduced<T>> {
        let (numer, denom) = other.reduced().into_raw();
        match products::lowest_products::checked_div(*self.numer(), *self.denom(), numer, denom) {
            Some((numer, denom)) => Some(Reduced {
                ratio: Ratio::new_raw(numer, denom),
            }),
            None => None,
        }
    }

    /// The remainder: 3/4 by 1/2 leaves 1/4. Over a primitive type, as over each type whose `EXACT_REMAINDERS` is
    /// true, it is `None` if `other` is 0 or the lowest terms do not fit the type. Over `i8`, 127/1 by 1/127
    /// leaves 0/1. Over other types, it is `None` if `other` is 0, or if the least common denominator or a
    /// numerator over it does not fit the type.
    #[inline(always)]
    pub fn checked_rem<O: ReducedOperand<T>>(&self, other: O) -> Option<Reduced<T>> {
        let (numer, denom) = other.reduced().into_raw();
        match remainder::lowest_remainders::checked_rem(
            *self.numer(),
            *self.denom(),
            numer,
            denom,
        ) {
            Some((numer, denom)) => Some(Reduced {
                ratio: Ratio::new_raw(numer, denom),
            }),
            None => None,
        }
    }

    // Reciprocals and powers.

    /// The reciprocal, or `None` if the fraction is 0 or the reciprocal does not fit the type. Over
    /// `i8`, -128/3 has none, since -3/128 does not fit.
    #[inline]
    pub fn checked_recip(&self) -> Option<Reduced<T>> {
        match pow::checked_recip(*self.numer(), *self.denom()) {
            Some((numer, denom)) => Some(Reduced {
                ratio: Ratio::new_raw(numer, denom),
            }),
            None => None,
        }
    }

    /// The power, or `None` if it does not fit the type: see `checked_pow_with`.
    #[inline]
    pub fn checked_pow(&self, exponent: i32) -> Option<Reduced<T>> {
        self.checked_pow_with(exponent)
    }

    /// The power. For the exponent 0 it is 1/1, also for 0/1. For a negative exponent it is the
    /// reciprocal of the power with its magnitude: 1/2 to the -2 is 4/1. All powers of 1 and -1 fit.
    ///
    /// The call returns `None` exactly if the lowest terms of the power do not fit the type, or if the
    /// fraction is 0 and the exponent negative. Over `i8`, -1/2 to the -7 is -128/1, though 128 does not
    /// fit. -1/2 to the 7 would be -1/128, so it is `None`.
    #[inline]
    pub fn checked_pow_with<E: Exponent>(&self, exponent: E) -> Option<Reduced<T>> {
        match pow::lowest_powers::checked_pow_with(*self.numer(), *self.denom(), exponent) {
            Some((numer, denom)) => Some(Reduced {
                ratio: Ratio::new_raw(numer, denom),
            }),
            None => None,
        }
    }

    // A fraction divides another if the quotient is a whole number: 1/12 divides 1/4 and 1/6.

    /// The greatest fraction that divides both: 1/12 for 1/4 and 1/6. It is never negative. The greatest
    /// common divisor of a fraction and 0 is the absolute value of the fraction. `None` exactly if its lowest
    /// terms do not fit the type. Over `i8`, for -128/1 and 0/1 it is 128/1.
    #[inline]
    pub fn checked_gcd<O: ReducedOperand<T>>(&self, other: O) -> Option<Reduced<T>> {
        let (numer, denom) = other.reduced().into_raw();
        match divisors::checked_gcd(*self.numer(), *self.denom(), numer, denom) {
            Some((numer, denom)) => Some(Reduced {
                ratio: Ratio::new_raw(numer, denom),
            }),
            None => None,
        }
    }

    /// The least fraction above 0 that both divide: 1/2 for 1/4 and 1/6. So two things that recur every 1/4
    /// and every 1/6 meet every 1/2. It is never negative, and it is 0/1 if either fraction is 0. `None`
    /// exactly if its lowest terms do not fit the type. Over `i8`, for 127/2 and 126/1 it is 16002/1.
    #[inline]
    pub fn checked_lcm<O: ReducedOperand<T>>(&self, other: O) -> Option<Reduced<T>> {
        let (numer, denom) = other.reduced().into_raw();
        match divisors::checked_lcm(*self.numer(), *self.denom(), numer, denom) {
            Some((numer, denom)) => Some(Reduced {
                ratio: Ratio::new_raw(numer, denom),
            }),
            None => None,
        }
    }

    // Products and quotients of many fractions. With enough room, no number on the way has to fit the type.

    /// The product of the items, or `None` if its lowest terms do not fit the type. No number on the way has to fit: over
    /// `i8`, the product of 100/3, 3/100, 127/2 and 2/127 is 1/1, in each order. `checked_product` is `None` there in the
    /// order 100/3, 127/2, 3/100, 2/127. An item is a fraction or a whole number, or a reference to one.
    ///
    /// `room` has at least two numbers for each item. With less room, the call is also `None` if a step is. Afterwards the
    /// room may hold other numbers.
    #[inline]
    pub fn checked_product_of<O: ReducedOperand<T> + Copy>(
        items: &[O],
        room: &mut [T],
    ) -> Option<Reduced<T>> {
        let none: [Reduced<T>; 0] = [];
        Reduced::checked_quotient_of(items, &none, room)
    }

    /// The product of the items `above` divided by each item `below`, or `None` if an item below is 0 or the lowest terms
    /// do not fit the type. No number on the way has to fit.
    ///
    /// `room` has at least two numbers for each item. With less room, the call is also `None` if a step is. Afterwards the
    /// room may hold other numbers.
    #[inline]
    pub fn checked_quotient_of<O: ReducedOperand<T> + Copy, P: ReducedOperand<T> + Copy>(
        above: &[O],
        below: &[P],
        room: &mut [T],
    ) -> Option<Reduced<T>> {
        match step_by_step(above, below) {
            Ok(quotient) => Some(quotient),
            Err(true) => None,
            Err(false) => {
                if has_room(above.len(), below.len(), room.len()) {
                    cancelled_first(above, below, room)
                } else {
                    None
                }
            }
        }
    }

    // Products and quotients rounded to a whole number, or to a multiple such as cents. They themselves need not fit the type.

    /// The product, rounded by the rule to a whole number, or `None` if that number does not fit the type. The product
    /// itself need not fit. Over `i64`, 9223372036854775807/3 times 2/5 by `HalfEven` is 1229782938247303441.
    #[inline]
    pub fn checked_mul_round<O: ReducedOperand<T>>(&self, other: O, rule: Rounding) -> Option<T> {
        let (numer, denom) = other.reduced().into_raw();
        rounded_product(*self.numer(), *self.denom(), numer, denom, rule)
    }

    /// The product, rounded by the rule to a multiple of `1/parts`, such as cents for 100. The call requires that
    /// `parts` is above 0. It is `None` only if the lowest terms of the multiple do not fit the type: the product itself
    /// need not fit. Over `i64`, 9223372036854775807/100 times 999/1000 to 100 by `HalfEven` is 9214148664817921031/100.
    ///
    /// # Conditions
    ///
    /// The proof requires of the caller:
    ///
    /// - `pos 0 <ℤ T.value parts`
    #[inline]
    pub fn checked_mul_round_to<O: ReducedOperand<T>>(
        &self,
        other: O,
        parts: T,
        rule: Rounding,
    ) -> Option<Reduced<T>> {
        let (numer, denom) = other.reduced().into_raw();
        match rounded_product_to(*self.numer(), *self.denom(), numer, denom, parts, rule) {
            Some((numer, denom)) => Some(Reduced {
                ratio: Ratio::new_raw(numer, denom),
            }),
            None => None,
        }
    }

    /// The quotient, rounded by the rule to a whole number, or `None` if `other` is 0 or that number does not fit the type.
    /// The quotient itself need not fit. Over `i64`, 9223372036854775807/3 by 5/2 by `HalfEven` is 1229782938247303441.
    #[inline]
    pub fn checked_div_round<O: ReducedOperand<T>>(&self, other: O, rule: Rounding) -> Option<T> {
        let (numer, denom) = other.reduced().into_raw();
        rounded_quotient(*self.numer(), *self.denom(), numer, denom, rule)
    }

    /// The quotient, rounded by the rule to a multiple of `1/parts`, such as cents for 100. The call requires that
    /// `parts` is above 0. It is `None` only if `other` is 0 or the lowest terms of the multiple do not fit the type: the
    /// quotient itself need not fit. Over `i64`, 9223372036854775807/100 by 1001/1000 to 100 by `HalfEven` is
    /// 9214157878975800007/100.
    ///
    /// # Conditions
    ///
    /// The proof requires of the caller:
    ///
    /// - `pos 0 <ℤ T.value parts`
    #[inline]
    pub fn checked_div_round_to<O: ReducedOperand<T>>(
        &self,
        other: O,
        parts: T,
        rule: Rounding,
    ) -> Option<Reduced<T>> {
        let (numer, denom) = other.reduced().into_raw();
        match rounded_quotient_to(*self.numer(), *self.denom(), numer, denom, parts, rule) {
            Some((numer, denom)) => Some(Reduced {
                ratio: Ratio::new_raw(numer, denom),
            }),
            None => None,
        }
    }

    // Whole numbers and multiples near a fraction, its fractional part, and the fractions near it or between two.

    /// The greatest whole number that is not above this fraction, over 1: -4/1 for -7/2.
    #[inline]
    pub fn floor(&self) -> Reduced<T> {
        Reduced::from_integer(*self.ratio.floor().numer())
    }

    /// The least whole number that is not below this fraction, over 1: -3/1 for -7/2.
    #[inline]
    pub fn ceil(&self) -> Reduced<T> {
        Reduced::from_integer(*self.ratio.ceil().numer())
    }

    /// The whole number nearest to this fraction, over 1. A half is rounded away from zero: 5/2 to
    /// 3/1.
    #[inline]
    pub fn round(&self) -> Reduced<T> {
        Reduced::from_integer(*self.ratio.round().numer())
    }

    /// This fraction cut towards zero, over 1: -3/1 for -7/2.
    #[inline]
    pub fn trunc(&self) -> Reduced<T> {
        Reduced::from_integer(self.to_integer())
    }

    /// This fraction minus its `trunc`: -1/2 for -7/2.
    #[inline]
    pub fn fract(&self) -> Reduced<T> {
        Reduced {
            ratio: self.ratio.fract(),
        }
    }

    /// This fraction cut towards zero: -3 for -7/2.
    #[inline]
    pub fn to_integer(&self) -> T {
        self.ratio.to_integer()
    }

    /// This fraction cut towards zero, as an `i64`, or `None` if that does not fit an `i64`.
    #[inline]
    pub fn to_i64(&self) -> Option<i64> {
        self.ratio.to_i64()
    }

    /// This fraction cut towards zero, as an `i128`, or `None` if that does not fit an `i128`.
    #[inline]
    pub fn to_i128(&self) -> Option<i128> {
        self.ratio.to_i128()
    }

    /// This fraction cut towards zero, as a `u64`, or `None` if that does not fit a `u64`. It is 0
    /// for -1/2.
    #[inline]
    pub fn to_u64(&self) -> Option<u64> {
        self.ratio.to_u64()
    }

    /// This fraction cut towards zero, as a `u128`, or `None` if that does not fit a `u128`.
    #[inline]
    pub fn to_u128(&self) -> Option<u128> {
        self.ratio.to_u128()
    }

    /// The multiple of `1/parts` that the rule says, such as cents for 100 and quarters for 4. The call requires that
    /// `parts` is above 0. It is `None` only if the lowest terms of the multiple do not fit the type: 2/3 to 100 by
    /// `HalfEven` is 67/100, and over `i8`, 100/3 to 100 is `None`.
    ///
    /// # Conditions
    ///
    /// The proof requires of the caller:
    ///
    /// - `pos 0 <ℤ T.value parts`
    #[inline]
    pub fn round_to(&self, parts: T, rule: Rounding) -> Option<Reduced<T>> {
        match round_to(*self.numer(), *self.denom(), parts, rule) {
            Some((numer, denom)) => Some(Reduced {
                ratio: Ratio::new_raw(numer, denom),
            }),
            None => None,
        }
    }

    /// The nearest fraction to this one with a denominator from 1 to `most`, as `nearest` of `Ratio`
    /// returns it. `None` if `most` is below 1.
    #[inline]
    pub fn nearest(&self, most: T) -> Option<Reduced<T>> {
        if T::ZERO < most {
            Some(Reduced {
                ratio: self.ratio.nearest(most),
            })
        } else {
            None
        }
    }

    /// Of all fractions strictly between `low` and `high`, the one with the smallest denominator. Of
    /// these it is the one whose numerator is nearest to 0. Between 1/3 and 1/2 it is 2/5, and between
    /// -1/2 and 5/2 it is 0/1. `None` exactly if the type has no fraction between them. So it is
    /// `None` if `low` is not below `high`, and over `i8` it is `None` between 0/1 and 1/127.
    #[inline]
    pub fn simplest_between(low: &Reduced<T>, high: &Reduced<T>) -> Option<Reduced<T>> {
        let (numer, denom) = simplest::simplest_between(
            *low.numer(),
            *low.denom(),
            *high.numer(),
            *high.denom(),
        )?;
        Some(Reduced {
            ratio: Ratio::new_raw(numer, denom),
        })
    }

    /// Of all fractions within the bounds, the one with the smallest denominator. Of these it is the one whose
    /// numerator is nearest to 0. Each bound is included, excluded or open. An included one may be the result: from
    /// 1/3 to 1/2, both included, it is 1/2. Above 5/2, without an upper bound, it is 3/1. Without any bound it is 0/1.
    /// `None` exactly if the type has no fraction within the bounds, as above 127/1 over `i8`.
    #[inline]
    pub fn simplest_within(low: Bound<Reduced<T>>, high: Bound<Reduced<T>>) -> Option<Reduced<T>> {
        let (numer, denom) = simplest::simplest_within(
            Reduced::fields_of(low),
            Reduced::fields_of(high),
        )?;
        Some(Reduced {
            ratio: Ratio::new_raw(numer, denom),
        })
    }

    // The bound with the two fields of its fraction.
    #[inline]
    fn fields_of(bound: Bound<Reduced<T>>) -> Bound<(T, T)> {
        match bound {
            Bound::Included(x) => Bound::Included(x.into_raw()),
            Bound::Excluded(x) => Bound::Excluded(x.into_raw()),
            Bound::Unbounded => Bound::Unbounded,
        }
    }

    // Continued fractions: the quotients and the convergents of a fraction, and the fraction of some quotients.

    /// The quotients of the continued fraction, one after another: 4, 2, 6 and 7 for 415/93, which is
    /// 4 + 1/(2 + 1/(6 + 1/7)). The first is the floor, and each later one is at least 1.
    ///
    /// For -7/3 they are -3, 1 and 2, and for 5 there is only 5.
    #[inline]
    pub fn continued_fraction(&self) -> Quotients<T> {
        Quotients {
            numer: *self.numer(),
            denom: *self.denom(),
        }
    }

    /// The convergents of the continued fraction, one after another: 4, 9/2, 58/13 and 415/93 for 415/93. Each is the
    /// fraction of the first quotients, one more than the one before. The first is the floor, and the last is the
    /// fraction itself. Each is in lowest terms, and none leaves the type.
    ///
    /// For -7/3 they are -3, -2 and -7/3, and for 5 there is only 5.
    #[inline]
    pub fn convergents(&self) -> Convergents<T> {
        let numer = *self.numer();
        let denom = *self.denom();
        let one = T::ONE;
        let zero = T::ZERO;
        Convergents {
            numer,
            denom,
            last_numer: one,
            last_denom: zero,
            earlier_numer: zero,
            earlier_denom: one,
        }
    }

    /// The fraction with these quotients: 4, 2, 6 and 7 give 4 + 1/(2 + 1/(6 + 1/7)), which is 415/93. `None`
    /// if there is no quotient, if one after the first is below 1, or if the fraction does not fit the type.
    ///
    /// Over `i8`, -3, 1 and 2 give -7/3, and 127 and 127 give `None`. The last quotient may be 1: 4, 2, 6, 6
    /// and 1 give 415/93, too.
    #[inline]
    pub fn from_continued_fraction(quotients: &[T]) -> Option<Reduced<T>> {
        match from_quotients(quotients) {
            Some((numer, denom)) => Some(Reduced {
                ratio: Ratio::new_raw(numer, denom),
            }),
            None => None,
        }
    }
}

impl<T: Copy + SignedInteger> Reduced<T> {
    /// The negative, or `None` if it does not fit the type. Only the least numerator can have none:
    /// over `i8`, -128.
    #[inline]
    pub fn checked_neg(&self) -> Option<Reduced<T>> {
        let denom = *self.denom();
        match self.numer().try_negate() {
            Some(numer) => Some(Reduced {
                ratio: Ratio::new_raw(numer, denom),
            }),
            None => None,
        }
    }

    /// The absolute value, or `None` if it does not fit the type. Only the least numerator can have
    /// none: over `i8`, -128.
    #[inline]
    pub fn checked_abs(&self) -> Option<Reduced<T>> {
        if self.is_negative() {
            self.checked_neg()
        } else {
            Some(*self)
        }
    }

    /// The sign: -1/1, 0/1 or 1/1.
    #[inline]
    pub fn signum(&self) -> Reduced<T> {
        Reduced::from_integer(*self.ratio.signum().numer())
    }

    /// Whether the value is below 0.
    #[inline]
    pub fn is_negative(&self) -> bool {
        *self.numer() < T::ZERO
    }

    /// Whether the value is above 0.
    #[inline]
    pub fn is_positive(&self) -> bool {
        T::ZERO < *self.numer()
    }
}

impl<T: Primitive> Reduced<T> {
    /// This fraction over the type `U`, or `None` if its numerator or its denominator does not fit
    /// that type. Over `i8`, 1/127 is `Some`, and 1/128 is `None`.
    #[inline]
    pub fn cast<U: Copy + Integer>(&self) -> Option<Reduced<U>> {
        let numer = number(*self.numer())?;
        let denom = number(*self.denom())?;
        Some(Reduced {
            ratio: Ratio::new_raw(numer, denom),
        })
    }
}

// The number over the type `U`, or `None` if it does not fit that type. A number that does not fit `i128`
// fits `u128`.
#[inline]
fn number<T: Primitive, U: Integer>(t: T) -> Option<U> {
    match t.to_i128() {
        Some(n) => U::from_i128(n),
        None => U::from_u128(t.to_u128().unwrap()),
    }
}

impl<T: Copy + Integer> Constants for Reduced<T> {
    const ZERO: Reduced<T> = Reduced {
        ratio: Ratio::<T>::ZERO,
    };

    const ONE: Reduced<T> = Reduced {
        ratio: Ratio::<T>::ONE,
    };
}
