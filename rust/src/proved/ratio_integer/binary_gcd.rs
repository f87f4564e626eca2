// Erased from crates/ratio_integer/src/binary_gcd.rt by rust/erase: not to be edited.
// Written by templates/write from templates/binary_gcd.rt.txt: change that file, and write this one anew.
//! The greatest common divisor of one or two pairs of magnitudes (`u64` or `u128`) by halving and
//! subtracting, without a division, or only if it is above a bound.
//!
//! This is Stein's algorithm (1967). It uses three rules. A factor of 2 of both numbers is a factor of
//! the result. A factor of 2 of only one number is not. Of two odd numbers, their difference may replace
//! the greater one; it is even, so each step removes at least one bit. For 21 and 15: 6, so 3 and 15.
//!
//! A processor would guess a branch on the smaller number wrong every other step. `min` and `abs_diff`
//! choose without a branch, and one shift by `trailing_zeros` halves as often as possible.

/// The number without its factors of 2.
///
/// # Conditions
///
/// The proof requires of the caller:
///
/// - `n ≢ 0`
#[inline(always)]
fn odd_part(n: u64) -> u64 {
    n >> n.trailing_zeros()
}

/// The distance of two numbers without its factors of 2. The wrapped difference has as many of these, and
/// a processor counts them while it computes the distance.
///
/// # Conditions
///
/// The proof requires of the caller:
///
/// - `x ≢ y`
#[inline(always)]
fn odd_distance(x: u64, y: u64) -> u64 {
    let zeros = y.wrapping_sub(x).trailing_zeros();
    x.abs_diff(y) >> zeros
}

/// The greatest common divisor of magnitudes of at most 64 bits, 0 for 0 and 0.
#[inline]
pub fn binary_gcd(a: u64, b: u64) -> u64 {
    if a == 0 {
        return b;
    }
    if b == 0 {
        return a;
    }
    let shift = a.trailing_zeros().min(b.trailing_zeros());
    odd_gcd(odd_part(a), odd_part(b)) << shift
}

/// The greatest common divisors of `a` and `b` and of `c` and `d`, which take less time together than one
/// after the other: a processor does the steps of both at once.
#[inline]
pub(crate) fn binary_gcds(a: u64, b: u64, c: u64, d: u64) -> (u64, u64) {
    if a == 0 || b == 0 || c == 0 || d == 0 {
        return (binary_gcd(a, b), binary_gcd(c, d));
    }
    let left = a.trailing_zeros().min(b.trailing_zeros());
    let right = c.trailing_zeros().min(d.trailing_zeros());
    let (x, u) = odd_gcds(odd_part(a), odd_part(b), odd_part(c), odd_part(d));
    (x << left, u << right)
}

/// The number without its factors of 2.
///
/// # Conditions
///
/// The proof requires of the caller:
///
/// - `n ≢ 0`
#[inline(always)]
fn odd_part_wide(n: u128) -> u128 {
    n >> n.trailing_zeros()
}

/// The distance of two numbers without its factors of 2. The wrapped difference of the lower halves has
/// as many, if it is not 0.
///
/// # Conditions
///
/// The proof requires of the caller:
///
/// - `x ≢ y`
#[inline(always)]
fn odd_distance_wide(x: u128, y: u128) -> u128 {
    let low = lower_half(y).wrapping_sub(lower_half(x));
    let distance = x.abs_diff(y);
    if low == 0 {
        odd_part_wide(distance)
    } else {
        distance >> low.trailing_zeros()
    }
}

/// The number without its upper 64 bits.
#[inline(always)]
fn lower_half(n: u128) -> u64 {
    (n % (1 << 64)) as u64
}

/// The greatest common divisor of magnitudes of at most 128 bits, 0 for 0 and 0. Most numbers fit 64 bits,
/// where each step takes less time.
#[inline]
pub(crate) fn binary_gcd_wide(a: u128, b: u128) -> u128 {
    if a <= u64::MAX as u128 && b <= u64::MAX as u128 {
        return binary_gcd(a as u64, b as u64) as u128;
    }
    if a == 0 {
        return b;
    }
    if b == 0 {
        return a;
    }
    let shift = a.trailing_zeros().min(b.trailing_zeros());
    odd_gcd_wide(odd_part_wide(a), odd_part_wide(b)) << shift
}

/// Both greatest common divisors. They are computed together if all four magnitudes fit 64 bits.
#[inline]
pub(crate) fn binary_gcds_wide(a: u128, b: u128, c: u128, d: u128) -> (u128, u128) {
    let most = u64::MAX as u128;
    if a <= most && b <= most && c <= most && d <= most {
        let (x, u) = binary_gcds(a as u64, b as u64, c as u64, d as u64);
        return (x as u128, u as u128);
    }
    (binary_gcd_wide(a, b), binary_gcd_wide(c, d))
}

/// The greatest common divisor of magnitudes of at most 128 bits. It is `None` only if the divisor is at
/// most `bound`.
#[inline]
pub(crate) fn gcd_above(a: u128, b: u128, bound: u128) -> Option<u128> {
    if a == 0 {
        return Some(b);
    }
    if b == 0 {
        return Some(a);
    }
    let shift = a.trailing_zeros().min(b.trailing_zeros());
    match odd_gcd_above_wide(odd_part_wide(a), odd_part_wide(b), bound >> shift) {
        None => None,
        Some(divisor) => Some(divisor << shift),
    }
}

/// The greatest common divisors of `a` and `b` and of `c` and `d`. Once one pair has ended, the other one goes
/// on alone. Each step of a pair waits for the step before it. A processor does a step of the other pair
/// meanwhile.
///
/// # Conditions
///
/// The proof requires of the caller:
///
/// - `first`: `a % 2 ≡ 1`
/// - `second`: `b % 2 ≡ 1`
/// - `third`: `c % 2 ≡ 1`
/// - `fourth`: `d % 2 ≡ 1`
#[inline]
fn odd_gcds(a: u64, b: u64, c: u64, d: u64) -> (u64, u64) {
    let mut x = a;
    let mut y = b;
    let mut u = c;
    let mut v = d;
    while x != y && x != 1 && u != v && u != 1 {
        let rest = odd_distance(x, y);
        let other = odd_distance(u, v);
        x = x.min(y);
        y = rest;
        u = u.min(v);
        v = other;
    }
    (odd_gcd(x, y), odd_gcd(u, v))
}

/// The greatest common divisor of two odd numbers. It divides the smaller number of each step, so it is 1
/// once that number is 1.
///
/// # Conditions
///
/// The proof requires of the caller:
///
/// - `left`: `a % 2 ≡ 1`
/// - `right`: `b % 2 ≡ 1`
#[inline]
fn odd_gcd(a: u64, b: u64) -> u64 {
    let mut x = a;
    let mut y = b;
    while x != y && x != 1 {
        let rest = odd_distance(x, y);
        x = x.min(y);
        y = rest;
    }
    x
}

/// The greatest common divisor of two odd numbers. It divides the smaller number of each step, so it is 1
/// once that number is 1.
/// A step in 128 bits costs several in 64, so the loop goes on in 64 bits once both numbers fit.
///
/// # Conditions
///
/// The proof requires of the caller:
///
/// - `left`: `a % 2 ≡ 1`
/// - `right`: `b % 2 ≡ 1`
#[inline]
fn odd_gcd_wide(a: u128, b: u128) -> u128 {
    let mut x = a;
    let mut y = b;
    while x != y && x != 1 {
        if x <= u64::MAX as u128 && y <= u64::MAX as u128 {
            return odd_gcd(x as u64, y as u64) as u128;
        }
        let rest = odd_distance_wide(x, y);
        x = x.min(y);
        y = rest;
    }
    x
}

/// The greatest common divisor of two odd numbers. It divides the smaller number of each step, so it is 1
/// once that number is 1.
/// The result is `None` only if the divisor is at most `bound`.
///
/// # Conditions
///
/// The proof requires of the caller:
///
/// - `left`: `a % 2 ≡ 1`
/// - `right`: `b % 2 ≡ 1`
#[inline]
fn odd_gcd_above(a: u64, b: u64, bound: u64) -> Option<u64> {
    // One comparison a step tells both ends: `x` is at most the bound, or it is 1.
    let limit = bound.max(1);
    let mut x = a;
    let mut y = b;
    while x != y {
        if x <= limit {
            return if bound == 0 { Some(1) } else { None };
        }
        let rest = odd_distance(x, y);
        x = x.min(y);
        y = rest;
    }
    Some(x)
}

/// The greatest common divisor of two odd numbers. It divides the smaller number of each step, so it is 1
/// once that number is 1.
/// The result is `None` only if the divisor is at most `bound`.
/// A step in 128 bits costs several in 64, so the loop goes on in 64 bits once both numbers fit.
///
/// # Conditions
///
/// The proof requires of the caller:
///
/// - `left`: `a % 2 ≡ 1`
/// - `right`: `b % 2 ≡ 1`
#[inline]
fn odd_gcd_above_wide(a: u128, b: u128, bound: u128) -> Option<u128> {
    // One comparison a step tells both ends: `x` is at most the bound, or it is 1.
    let limit = bound.max(1);
    let mut x = a;
    let mut y = b;
    while x != y {
        if x <= limit {
            return if bound == 0 { Some(1) } else { None };
        }
        if x <= u64::MAX as u128 && y <= u64::MAX as u128 {
            return match odd_gcd_above(x as u64, y as u64, bound as u64) {
                None => None,
                Some(divisor) => Some(divisor as u128),
            };
        }
        let rest = odd_distance_wide(x, y);
        x = x.min(y);
        y = rest;
    }
    Some(x)
}
