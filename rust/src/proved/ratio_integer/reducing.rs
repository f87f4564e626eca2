// Erased from crates/ratio_integer/src/reducing.rt by rust/erase: not to be edited.
//! The lowest terms of one fraction or two, and their numbers cancelled: divided by their gcd, each with its sign.

use crate::proved::ratio_integer::integer::Integer;

/// The lowest terms of `n/d`, for a positive `d`. They always fit the type. So does the gcd on the way, since
/// it is at most `d`. A number over 1 is returned at once.
///
/// # Conditions
///
/// The proof requires of the caller:
///
/// - `pos 0 <ℤ T.value d`
#[inline]
pub fn lowest_terms<T: Integer>(n: T, d: T) -> (T, T) {
    if d.is_one() {
        return (n, d);
    }
    let (numer, denom) = cancelled(n, d);
    (numer, denom)
}

/// Both numbers, divided by their gcd. The signs stay where they are: 4/-6 gives 2/-3. Numbers without a
/// common divisor above 1 are returned unchanged, without a division.
///
/// # Conditions
///
/// The proof requires of the caller:
///
/// - `fraction`: `T.value d ≢ pos 0`
/// - `held`: `¬ (IsGcdAboveMax T.hi (T.value n) (T.value d))`
#[inline]
pub fn cancelled<T: Integer>(n: T, d: T) -> (T, T) {
    divided(n, d, n.gcd(d))
}

/// Both numbers, divided by their gcd, which the caller has found: `gcds` finds those of two pairs together.
///
/// # Conditions
///
/// The proof requires of the caller:
///
/// - `fraction`: `T.value d ≢ pos 0`
/// - `greatest`: `IsGcdOf (T.value n) (T.value d) (T.value divisor)`
#[inline]
pub(crate) fn divided<T: Integer>(n: T, d: T, divisor: T) -> (T, T) {
    if divisor.is_one() {
        return (n, d);
    }
    let (numer, _) = n.div_rem(divisor);
    let (denom, _) = d.div_rem(divisor);
    (numer, denom)
}

/// The lowest terms of `a/b` and of `c/d`. Both gcds are computed together.
///
/// # Conditions
///
/// The proof requires of the caller:
///
/// - `left_positive`: `pos 0 <ℤ T.value b`
/// - `right_positive`: `pos 0 <ℤ T.value d`
#[inline]
pub fn both_lowest_terms<T: Integer>(a: T, b: T, c: T, d: T) -> ((T, T), (T, T)) {
    if b.is_one() || d.is_one() {
        return (lowest_terms(a, b), lowest_terms(c, d));
    }
    let ((p, q), (s, t)) = both_cancelled(a, b, c, d);
    ((p, q), (s, t))
}

/// The numbers of `a/b` and of `c/d`, each divided by the gcd of its pair. The signs stay where they are.
///
/// # Conditions
///
/// The proof requires of the caller:
///
/// - `left_fraction`: `T.value b ≢ pos 0`
/// - `left_held`: `¬ (IsGcdAboveMax T.hi (T.value a) (T.value b))`
/// - `right_fraction`: `T.value d ≢ pos 0`
/// - `right_held`: `¬ (IsGcdAboveMax T.hi (T.value c) (T.value d))`
#[inline]
pub fn both_cancelled<T: Integer>(a: T, b: T, c: T, d: T) -> ((T, T), (T, T)) {
    let (left, right) = T::gcds(a, b, c, d);
    (divided(a, b, left), divided(c, d, right))
}
