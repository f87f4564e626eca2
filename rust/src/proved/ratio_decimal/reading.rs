// Erased from crates/ratio_decimal/src/reading.rt by rust/erase: not to be edited.
//! Reading a decimal, such as `12.375` or `-1.5e-3`, as a fraction, and why it is refused.
pub(crate) mod cut;
pub(crate) mod terms;
pub(crate) mod value;

use crate::proved::ratio_decimal::reading::cut::decimal_parts;
use crate::proved::ratio_decimal::reading::terms::Terms;
use crate::proved::ratio_decimal::reading::value::lowest;
use crate::proved::ratio_integer::Primitive;
#[cfg(feature = "std")]
use std::error::Error;
use core::fmt;

/// Why a text has no fraction as a decimal.
#[derive(Clone, Copy, PartialEq, Debug)]
pub enum DecimalRefusal {
    /// The text is no decimal: `1.2.3`, `1e`, `.` and the empty text.
    NotDecimal,
    /// The text is a decimal, and the lowest terms of its value do not fit the type. Over `i8`: `128`, and
    /// `0.0078125`, which is 1/128.
    NotHeld,
}

impl fmt::Display for DecimalRefusal {
    #[inline]
    fn fmt(&self, f: &mut fmt::Formatter<'_>) -> fmt::Result {
        f.pad(match self {
            DecimalRefusal::NotDecimal => "the text is not a decimal such as -12.5 or 1.5e-3",
            DecimalRefusal::NotHeld => "the lowest terms of the decimal do not fit the type",
        })
    }
}

/// The lowest terms of a decimal: 99/8 for `12.375`. The text is a sign or none, digits with at most one point, and an
/// exponent or none, such as `e-3`. It has at least one digit before the exponent. The value is exact, however long the
/// text is: `0.500000000000000000000000000` is 1/2.
///
/// The time grows with the length of the text, and not with the exponent. The call takes no memory.
#[inline]
pub fn from_decimal<T: Primitive>(text: &str) -> Result<(T, T), DecimalRefusal> {
    match decimal_parts(text.as_bytes()) {
        None => Err(DecimalRefusal::NotDecimal),
        Some(parts) => match lowest(parts.whole, parts.part, parts.down, parts.exponent) {
            None => Err(DecimalRefusal::NotHeld),
            Some(terms) => match held_terms::<T>(parts.below, terms) {
                None => Err(DecimalRefusal::NotHeld),
                Some(fraction) => Ok(fraction),
            },
        },
    }
}

/// The two numbers in the type, the first one negated if `below`.
#[inline]
pub(crate) fn held_terms<T: Primitive>(below: bool, terms: Terms) -> Option<(T, T)> {
    let numer = signed::<T>(below, terms.numer)?;
    let denom = T::from_u128(terms.denom)?;
    Some((numer, denom))
}

// The number in the type, negated if `below`.
#[inline]
fn signed<T: Primitive>(below: bool, size: u128) -> Option<T> {
    if below {
        T::from_i128(crate::newer::checked_sub_unsigned(0i128, size)?)
    } else {
        T::from_u128(size)
    }
}

#[cfg(feature = "std")]
impl Error for DecimalRefusal {}
