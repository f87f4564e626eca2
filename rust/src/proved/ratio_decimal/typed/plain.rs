// Erased from crates/ratio_decimal/src/typed/plain.rt by rust/erase: not to be edited.
//! The lowest terms of a decimal or a fraction, or of their 100th parts.

use crate::proved::ratio_decimal::reading::cut::decimal_parts;
use crate::proved::ratio_decimal::reading::terms::Terms;
use crate::proved::ratio_decimal::reading::value::{lowest, lowest_hundredth};
use crate::proved::ratio_decimal::typed::TextRefusal;
use crate::proved::ratio_decimal::typed::parts::quotient_parts;
use crate::proved::ratio_decimal::typed::signed::{SignedTerms, quotient_terms};

/// The lowest terms of the text, or of its 100th part if `percent`.
#[inline]
pub(crate) fn plain_terms(text: &[u8], percent: bool) -> Result<SignedTerms, TextRefusal> {
    match quotient_parts(text) {
        None => match decimal_parts(text) {
            None => Err(TextRefusal::NotNumber),
            Some(parts) => match decimal_terms(
                parts.whole,
                parts.part,
                parts.down,
                parts.exponent,
                percent,
            ) {
                None => Err(TextRefusal::NotHeld),
                Some(terms) => Ok(SignedTerms {
                    below: parts.below,
                    terms,
                }),
            },
        },
        Some(parts) => match quotient_terms(parts.numer, parts.denom, percent) {
            Err(refusal) => Err(refusal),
            Ok(terms) => Ok(SignedTerms {
                below: differ(parts.below, parts.under),
                terms,
            }),
        },
    }
}

// The lowest terms of the digits and the exponent of a decimal, or of its 100th part if `percent`.
#[inline]
fn decimal_terms(
    whole: &[u8],
    part: &[u8],
    down: bool,
    exponent: &[u8],
    percent: bool,
) -> Option<Terms> {
    if percent {
        lowest_hundredth(whole, part, down, exponent)
    } else {
        lowest(whole, part, down, exponent)
    }
}

// Whether one of the two is true, and the other is false.
#[inline]
fn differ(one: bool, other: bool) -> bool {
    if one { !other } else { other }
}
