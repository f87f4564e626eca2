// Erased from crates/ratio_decimal/src/typed/signed.rt by rust/erase: not to be edited.
//! The lowest terms of fractions and mixed numbers, from the digits of their whole numbers.

use crate::proved::ratio_decimal::reading::cut::number_after;
use crate::proved::ratio_decimal::reading::terms::{Terms, whole_before};
use crate::proved::ratio_decimal::typed::TextRefusal;
use crate::proved::ratio_integer::{cancelled, lowest_terms};

/// The lowest terms of a number, and whether it is below 0.
#[derive(Clone, Copy)]
pub(crate) struct SignedTerms {
    pub below: bool,
    pub terms: Terms,
}

/// The lowest terms of `b/c`, or of its 100th part if `percent`.
///
/// # Conditions
///
/// The proof requires of the caller:
///
/// - `numer`: `AllDigits 10 numer.now`
/// - `denom`: `AllDigits 10 denom.now`
#[inline]
pub(crate) fn quotient_terms(
    numer: &[u8],
    denom: &[u8],
    percent: bool,
) -> Result<Terms, TextRefusal> {
    match part_terms(numer, denom) {
        Err(refusal) => Err(refusal),
        Ok(terms) => {
            if percent {
                match hundredth(terms) {
                    None => Err(TextRefusal::NotHeld),
                    Some(less) => Ok(less),
                }
            } else {
                Ok(terms)
            }
        }
    }
}

/// The lowest terms of `a b/c`. The terms of `b/c` come first. Then the denominator stays, since what divides it and the
/// numerator of the sum divides the numerator of `b/c`.
///
/// # Conditions
///
/// The proof requires of the caller:
///
/// - `whole`: `AllDigits 10 whole.now`
/// - `numer`: `AllDigits 10 numer.now`
/// - `denom`: `AllDigits 10 denom.now`
#[inline]
pub(crate) fn mixed_terms(whole: &[u8], numer: &[u8], denom: &[u8]) -> Result<Terms, TextRefusal> {
    match part_terms(numer, denom) {
        Err(refusal) => Err(refusal),
        Ok(part) => match number_after(0, whole) {
            None => Err(TextRefusal::NotHeld),
            Some(number) => match whole_before(number, part) {
                None => Err(TextRefusal::NotHeld),
                Some(terms) => Ok(terms),
            },
        },
    }
}

// The lowest terms of `b/c`.
#[inline]
fn part_terms(numer: &[u8], denom: &[u8]) -> Result<Terms, TextRefusal> {
    match number_after(0, denom) {
        None => Err(TextRefusal::NotHeld),
        Some(d) => {
            if d == 0 {
                return Err(TextRefusal::ZeroDenominator);
            }
            match number_after(0, numer) {
                None => Err(TextRefusal::NotHeld),
                Some(n) => Ok(reduced(n, d)),
            }
        }
    }
}

// The lowest terms of n/d.
#[inline]
fn reduced(n: u128, d: u128) -> Terms {
    let (numer, denom) = lowest_terms(n, d);
    Terms { numer, denom }
}

// The lowest terms of a 100th part. What divides both new numbers divides 100, since nothing divides the old ones.
#[inline]
fn hundredth(terms: Terms) -> Option<Terms> {
    let (numer, rest) = cancelled(terms.numer, 100);
    let denom = terms.denom.checked_mul(rest)?;
    Some(Terms { numer, denom })
}
