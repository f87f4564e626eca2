// Erased from crates/ratio_decimal/src/rounding_rule.rt by rust/erase: not to be edited.
//! The six rules of rounding (`Rounding`), and a fraction or a product of two rounded by them, to a whole number or to a multiple of
//! `1/parts`, such as cents or quarters.
//!
//! A rule asks only where a rest lies: at 0, below a half, at a half or above it. A product that fits the type, or 128 bits for a
//! whole number, is divided once. `product` rounds the others.

use crate::proved::ratio_decimal::product::{Factor, Target, long_product};
use crate::proved::ratio_core::sign::is_below_zero;
use crate::proved::ratio_core::sums::{carried_on, multiple_over, numerator_of};
use crate::proved::ratio_integer::{Integer, lowest_terms};

/// How a number between two neighbours is rounded to one of them. The neighbours are whole numbers, or multiples of
/// 1/100 for two decimal places.
#[derive(Clone, Copy, PartialEq, Debug)]
pub enum Rounding {
    /// To the nearer one, and a half away from zero: 5/2 to 3, and -5/2 to -3.
    HalfAway,
    /// To the nearer one, and a half to the even one: 5/2 to 2, and 7/2 to 4. Rust prints floats so in `{:.2}`.
    HalfEven,
    /// Towards zero: 11/4 to 2, and -11/4 to -2.
    Down,
    /// Away from zero: 9/4 to 3, and -9/4 to -3.
    Up,
    /// To the one below: 11/4 to 2, and -9/4 to -3.
    Floor,
    /// To the one above: 9/4 to 3, and -11/4 to -2.
    Ceil,
}

/// The whole number that the rule gives of `n/d`. It always fits the type: `d` is at least 1.
///
/// # Conditions
///
/// The proof requires of the caller:
///
/// - `pos 0 <ℤ T.value d`
#[inline]
pub(crate) fn rounded_whole<T: Integer>(n: T, d: T, rule: Rounding) -> T {
    if d.is_one() {
        return n;
    }
    let (floor, left) = n.div_mod_floor(d);
    let up = takes_next(rule, (floor, T::ZERO), T::ONE, side_of(left, d));
    let whole = carried_on(floor, up);
    whole
}

/// The multiple of `1/parts` that the rule says, in lowest terms, or `None` if they do not fit the type. Over `i8`,
/// 100/3 in hundredths does not fit.
///
/// # Conditions
///
/// The proof requires of the caller:
///
/// - `positive`: `pos 0 <ℤ T.value d`
/// - `some`: `pos 0 <ℤ T.value parts`
#[inline]
pub fn round_to<T: Integer>(n: T, d: T, parts: T, rule: Rounding) -> Option<(T, T)> {
    let (whole, part) = rounded(n, d, parts, rule);
    let (part, denom) = lowest_terms(part, parts);
    Some((numerator_of(whole, part, denom)?, denom))
}

/// The multiple of `1/parts` that the rule says, as a whole number and how many `1/parts` more.
///
/// # Conditions
///
/// The proof requires of the caller:
///
/// - `positive`: `pos 0 <ℤ T.value d`
/// - `some`: `pos 0 <ℤ T.value parts`
#[inline]
pub(crate) fn rounded<T: Integer>(n: T, d: T, parts: T, rule: Rounding) -> (T, T) {
    let (floor, rest) = n.div_mod_floor(d);
    let (part, left) = multiple_over(rest, parts, d);
    if goes_up(rule, (floor, part), parts, left, d) {
        next((floor, part), parts)
    } else {
        (floor, part)
    }
}

/// One `1/parts` more.
///
/// # Conditions
///
/// The proof requires of the caller:
///
/// - `part`: `IsPart (T.value x.1) (T.value parts)`
/// - `room`: `IsHeld T.lo T.hi (T.value x.0 +ℤ pos 1)`
#[inline]
pub(crate) fn next<T: Integer>(x: (T, T), parts: T) -> (T, T) {
    let part = x.1.plus(T::ONE);
    if part == parts {
        (x.0.plus(T::ONE), T::ZERO)
    } else {
        (x.0, part)
    }
}

// Whether the rule takes the multiple above. The fraction is the multiple x and `left/d` more, in `1/parts`.
#[inline]
fn goes_up<T: Integer>(rule: Rounding, x: (T, T), parts: T, left: T, d: T) -> bool {
    takes_next(rule, x, parts, side_of(left, d))
}

/// The whole number that the rule gives of `a/b` times `c/d`, or `None` if it does not fit the type. Over `i8`, 127/3
/// times 2/5 by `HalfEven` is 17, and times 6/1 it is `None`. The fractions may be in any terms.
///
/// # Conditions
///
/// The proof requires of the caller:
///
/// - `left_positive`: `pos 0 <ℤ T.value b`
/// - `right_positive`: `pos 0 <ℤ T.value d`
#[inline]
pub fn rounded_product<T: Integer>(a: T, b: T, c: T, d: T, rule: Rounding) -> Option<T> {
    if let Some(numer) = a.try_times(c) {
        if let Some(denom) = b.try_times(d) {
            return Some(rounded_whole(numer, denom, rule));
        }
    }
    if let Some((numer, denom)) = wide_product(a, b, c, d) {
        return T::from_i128(rounded_whole(numer, denom, rule));
    }
    let left = Factor { numer: a, denom: b };
    let right = Factor { numer: c, denom: d };
    let parts = T::ONE;
    let (whole, _) = long_product(left, right, Target { parts, rule })?;
    Some(whole)
}

/// The multiple of `1/parts` that the rule gives of `a/b` times `c/d`, in lowest terms, or `None` if they do not fit the
/// type. Over `i8`, 127/3 times 2/5 in quarters by `HalfEven` is 17/1, and in hundredths it is `None`. The fractions may
/// be in any terms.
///
/// # Conditions
///
/// The proof requires of the caller:
///
/// - `left_positive`: `pos 0 <ℤ T.value b`
/// - `right_positive`: `pos 0 <ℤ T.value d`
/// - `some`: `pos 0 <ℤ T.value parts`
#[inline]
pub fn rounded_product_to<T: Integer>(
    a: T,
    b: T,
    c: T,
    d: T,
    parts: T,
    rule: Rounding,
) -> Option<(T, T)> {
    if let Some(numer) = a.try_times(c) {
        if let Some(denom) = b.try_times(d) {
            return round_to(numer, denom, parts, rule);
        }
    }
    let left = Factor { numer: a, denom: b };
    let right = Factor { numer: c, denom: d };
    long_product(left, right, Target { parts, rule })
}

// The product `ac/(bd)` in 128 bits, or `None` if a number does not fit there. Those of signed types of at most 64 bits fit.
#[inline]
fn wide_product<T: Integer>(a: T, b: T, c: T, d: T) -> Option<(i128, i128)> {
    let numer = a.to_i128()?.try_times(c.to_i128()?)?;
    let denom = b.to_i128()?.try_times(d.to_i128()?)?;
    Some((numer, denom))
}

/// Where a part of 1 lies.
#[derive(Clone, Copy, PartialEq, Debug)]
pub(crate) enum Side {
    /// It is 0.
    Zero,
    /// It is above 0 and below a half.
    BelowHalf,
    /// It is a half.
    Half,
    /// It is above a half.
    AboveHalf,
}

/// Where `left/d` lies.
///
/// # Conditions
///
/// The proof requires of the caller:
///
/// - `IsPart (T.value left) (T.value d)`
#[inline]
pub(crate) fn side_of<T: Integer>(left: T, d: T) -> Side {
    if left.is_zero() {
        Side::Zero
    } else if is_past_half(left, d) {
        Side::AboveHalf
    } else if is_half(left, d) {
        Side::Half
    } else {
        Side::BelowHalf
    }
}

/// Where `(rest + left/b)/d` lies. With some `left` it is between `rest/d` and `(rest + 1)/d`. So `left/b` decides
/// only if these lie on both sides of a half.
///
/// # Conditions
///
/// The proof requires of the caller:
///
/// - `rest`: `IsPart (T.value rest) (T.value d)`
/// - `left`: `IsPart (T.value left) (T.value b)`
#[inline]
pub(crate) fn side_of_both<T: Integer>(rest: T, d: T, left: T, b: T) -> Side {
    if left.is_zero() {
        return side_of(rest, d);
    }
    let after = d.minus(rest).minus(T::ONE);
    if rest < after {
        Side::BelowHalf
    } else if rest == after {
        side_of(left, b)
    } else {
        Side::AboveHalf
    }
}

/// Whether the rule takes the multiple above x, where the rest lies on this side.
///
/// # Conditions
///
/// The proof requires of the caller:
///
/// - `IsPart (T.value x.1) (T.value parts)`
#[inline]
pub(crate) fn takes_next<T: Integer>(rule: Rounding, x: (T, T), parts: T, side: Side) -> bool {
    match rule {
        Rounding::HalfAway => match side {
            Side::Zero | Side::BelowHalf => false,
            Side::Half => !is_below_zero(x.0),
            Side::AboveHalf => true,
        },
        Rounding::HalfEven => match side {
            Side::Zero | Side::BelowHalf => false,
            Side::Half => is_odd(x, parts),
            Side::AboveHalf => true,
        },
        Rounding::Down => has_rest(side) && is_below_zero(x.0),
        Rounding::Up => has_rest(side) && !is_below_zero(x.0),
        Rounding::Floor => false,
        Rounding::Ceil => has_rest(side),
    }
}

#[inline]
fn has_rest(side: Side) -> bool {
    match side {
        Side::Zero => false,
        Side::BelowHalf | Side::Half | Side::AboveHalf => true,
    }
}

// Whether `left/d` is above a half.
#[inline]
fn is_past_half<T: Integer>(left: T, d: T) -> bool {
    d.minus(left) < left
}

// Whether `left/d` is a half.
#[inline]
fn is_half<T: Integer>(left: T, d: T) -> bool {
    d.minus(left) == left
}

/// Whether a multiple is an odd number of `1/parts`.
#[inline]
pub(crate) fn is_odd<T: Integer>(x: (T, T), parts: T) -> bool {
    if x.0.is_even() || parts.is_even() {
        x.1.is_odd()
    } else {
        x.1.is_even()
    }
}
