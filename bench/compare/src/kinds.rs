//! The kinds of input: pairs of fractions for a type of `bits` bits, with positive denominators.
//!
//! `pairs` makes each kind, but for `fitting`: its sums fit, though a number over the common denominator does not.

use crate::random::Random;
use num_integer::Integer;

/// Two fractions: numerator and denominator of the left one, then of the right one.
pub type Fields = [i128; 4];

pub const KINDS: [&str; 5] = ["small", "half", "full", "near", "equal denominators"];

/// `count` pairs of a kind, not reduced.
pub fn pairs(kind: &str, bits: u32, count: usize, random: &mut Random) -> Vec<Fields> {
    let make: fn(u32, &mut Random) -> Fields = match kind {
        "small" => small,
        "half" => half,
        "full" => full,
        "near" => near,
        _ => equal_denominators,
    };
    (0..count).map(|_| make(bits, random)).collect()
}

fn four(end: u128, random: &mut Random) -> Fields {
    [
        random.signed(end),
        1 + random.below(end - 1) as i128,
        random.signed(end),
        1 + random.below(end - 1) as i128,
    ]
}

/// Fields up to 1000.
fn small(_bits: u32, random: &mut Random) -> Fields {
    four(1001, random)
}

/// Fields whose products of two fit, and so do the sums of two such products.
fn half(bits: u32, random: &mut Random) -> Fields {
    four(1 << (bits / 2 - 1), random)
}

/// Fields up to the greatest number of the type.
fn full(bits: u32, random: &mut Random) -> Fields {
    four(1 << (bits - 1), random)
}

fn equal_denominators(bits: u32, random: &mut Random) -> Fields {
    let [n, d, m, _] = half(bits, random);
    [n, d, m, d]
}

/// `count` pairs above 0 and in lowest terms. Their denominators `p*q` and `q*r` have the type's width. Each of the three factors has about half the
/// width, so the common denominator `p*q*r` has one and a half. But `q` divides the numerator over it: of the sum, or for near fractions of
/// the left less the right.
pub fn fitting(is_near: bool, bits: u32, count: usize, random: &mut Random) -> Vec<Fields> {
    std::iter::repeat_with(|| fitting_pair(is_near, bits, random)).flatten().take(count).collect()
}

fn fitting_pair(is_near: bool, bits: u32, random: &mut Random) -> Option<Fields> {
    let most = 1i128 << ((bits - 1) / 2);
    let mut part = || most / 2 + 1 + random.below(most as u128 / 2) as i128;
    let (p, q, r) = (part(), part(), part());
    if p.gcd(&q) != 1 || q.gcd(&r) != 1 || p.gcd(&r) != 1 {
        return None;
    }
    // Both are below a half, so the numerator of the sum fits.
    let a = random.below((p * q / 2) as u128) as i128;
    // q divides a*r + c*p.
    let c = (q - a % q) * (r % q) % q * inverse(p % q, q) % q;
    // a/(p*q) is a*r/p over q*r.
    let c = if is_near { a / p * r / q * q - c } else { c + random.below((r / 2) as u128) as i128 * q };
    let is_lowest = a.gcd(&(p * q)) == 1 && c.gcd(&(q * r)) == 1;
    (is_lowest && c > 0).then(|| [a, p * q, c, q * r])
}

/// What times `x` leaves 1 by `modulus`, which has no common divisor with `x`.
fn inverse(x: i128, modulus: i128) -> i128 {
    x.extended_gcd(&modulus).x.mod_floor(&modulus)
}

/// Two fractions of the type's width, or up to 7 bits less, with one sign. They are as near to one another as
/// their denominators allow. Every other pair is two neighbouring quotients of Fibonacci numbers.
fn near(bits: u32, random: &mut Random) -> Fields {
    let end = 1u128 << (bits - 1 - random.below(8) as u32);
    let fibonacci = random.word() & 1 == 0;
    let (mut p, mut q, mut before_p, mut before_q) = (1u128, 1u128, 1u128, 0u128);
    loop {
        let quotient = if fibonacci { 1 } else { 1 + random.below(4) };
        // p is the greater number of each pair.
        if p > (end - 1 - before_p) / quotient {
            break;
        }
        let next = (quotient * p + before_p, quotient * q + before_q);
        before_p = std::mem::replace(&mut p, next.0);
        before_q = std::mem::replace(&mut q, next.1);
    }
    let sign = if random.word() & 1 == 0 { 1 } else { -1 };
    let left = [sign * p as i128, q as i128];
    let right = [sign * before_p as i128, before_q as i128];
    if random.word() & 1 == 0 {
        [left[0], left[1], right[0], right[1]]
    } else {
        [right[0], right[1], left[0], left[1]]
    }
}
