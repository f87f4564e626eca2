//! Exact results, in 128 bits.

use crate::operands::{show_fraction, Fraction, Operands};

fn gcd(a: i128, b: i128) -> i128 {
    if b == 0 {
        a.abs()
    } else {
        gcd(b, a % b)
    }
}

fn held(z: i128) -> Option<i8> {
    i8::try_from(z).ok()
}

/// The lowest terms, if both numbers fit an `i8`.
pub fn lowest(n: i128, d: i128) -> Option<Fraction> {
    let common = gcd(n, d) * d.signum();
    if d == 0 {
        None
    } else {
        Some((held(n / common)?, held(d / common)?))
    }
}

fn wide(((a, b), (c, d)): Operands) -> (i128, i128, i128, i128) {
    (a.into(), b.into(), c.into(), d.into())
}

fn shown(fraction: Option<Fraction>) -> Option<String> {
    fraction.map(show_fraction)
}

pub fn order(operands: Operands) -> Option<String> {
    let (a, b, c, d) = wide(operands);
    Some(format!(
        "{:?}",
        (a * d * (b * d).signum()).cmp(&(c * b * (b * d).signum()))
    ))
}

pub fn equal(operands: Operands) -> Option<String> {
    let (a, b, c, d) = wide(operands);
    Some((a * d == c * b).to_string())
}

pub fn hashed(operands: Operands) -> Option<String> {
    ((operands.1) == (0, 1)).then(|| "a hash".to_string())
}

/// The operands, if both denominators are positive. Every call that is not total requires that.
fn positive(operands: Operands) -> Option<(i128, i128, i128, i128)> {
    let (a, b, c, d) = wide(operands);
    (b > 0 && d > 0).then_some((a, b, c, d))
}

/// Says that a sum does not fit, if it does not.
pub fn refused_sum(operands: Operands) -> Option<String> {
    let (a, b, c, d) = positive(operands)?;
    lowest(a * d + c * b, b * d)
        .is_none()
        .then(|| "refused".to_string())
}

pub fn product(operands: Operands) -> Option<String> {
    let (a, b, c, d) = positive(operands)?;
    shown(lowest(a * c, b * d))
}

pub fn quotient(operands: Operands) -> Option<String> {
    let (a, b, c, d) = positive(operands)?;
    shown(lowest(a * d, b * c))
}

/// The remainder of the first by the second, if the least common denominator and both numerators over it fit.
pub fn remainder(operands: Operands) -> Option<String> {
    let (a, b, c, d) = positive(operands)?;
    let common = b / gcd(b, d) * d;
    let (left, right) = (held(a * (common / b))?, held(c * (common / d))?);
    held(common)?;
    if right == 0 {
        return None;
    }
    shown(lowest(i128::from(left) % i128::from(right), common))
}

fn single(operands: Operands) -> Option<(i128, i128)> {
    let (a, b, c, d) = positive(operands)?;
    ((c, d) == (0, 1)).then_some((a, b))
}

pub fn floor(operands: Operands) -> Option<String> {
    let (n, d) = single(operands)?;
    Some(n.div_euclid(d).to_string())
}

pub fn ceil(operands: Operands) -> Option<String> {
    let (n, d) = single(operands)?;
    Some((-(-n).div_euclid(d)).to_string())
}

/// What a text of these two numbers gives: the lowest terms, or the name of the refusal.
pub fn text(operands: Operands) -> Option<String> {
    let (n, d, c, one) = wide(operands);
    ((c, one) == (0, 1)).then(|| lowest(n, d).map_or("parse error".to_string(), show_fraction))
}
