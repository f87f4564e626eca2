// Erased from crates/num_rational/src/printing.rt by rust/erase: not to be edited.
//! How a fraction is written into a formatter of std: in base 10, in a form with a prefix, or with a precision as a decimal.
//!
//! The clauses hold for a call that returns `Ok`, with a formatter that indents nothing (`IsFlush`): inside a `{:#?}` of
//! another value nothing is promised.

use crate::proved::num_rational::ratio::Ratio;
use crate::proved::ratio_core::{Form, RatioText};
use crate::proved::ratio_decimal::rounding_rule::Rounding;
use crate::proved::ratio_integer::Primitive;
use core::fmt;
use core::fmt::{Formatter, Write};

// Writes a text in base 10. A minus at its beginning is its sign.
#[inline]
pub(crate) fn write_base_ten(text: &str, f: &mut Formatter<'_>) -> fmt::Result {
    match text.strip_prefix('-') {
        Some(digits) => f.pad_integral(false, "", digits),
        None => f.pad_integral(true, "", text),
    }
}

// Writes a fraction in a form with a prefix.
/// # Conditions
///
/// The proof requires of the caller:
///
/// - `prefix.now ≡ prefix_of form`
#[inline]
pub(crate) fn write_in_base<T: Primitive>(
    x: &Ratio<T>,
    form: Form,
    prefix: &str,
    f: &mut Formatter<'_>,
) -> fmt::Result {
    let alternate = f.alternate();
    let mut text = RatioText::empty();
    x.put_text(form, alternate, &mut text);
    let text = text.as_str();
    f.pad_integral(true, prefix, after_prefix(text, prefix, alternate))
}

// The text without its prefix, if it has one.
#[inline]
fn after_prefix<'a>(text: &'a str, prefix: &str, is_there: bool) -> &'a str {
    if !is_there {
        return text;
    }
    match text.strip_prefix(prefix) {
        Some(body) => body,
        None => text,
    }
}

// Writes a fraction with so many places, a half to the even digit. A minus at its beginning is its sign.
/// # Conditions
///
/// The proof requires of the caller:
///
/// - `pos 0 <ℤ T.value denom`
#[inline]
pub(crate) fn write_with_places<T: Primitive>(
    numer: T,
    denom: T,
    places: usize,
    f: &mut Formatter<'_>,
) -> fmt::Result {
    if places < 39 {
        let text = crate::proved::ratio_decimal::decimal(numer, denom, places as u32, Rounding::HalfEven);
        write_base_ten(text.as_str(), f)
    } else {
        crate::proved::ratio_decimal::write_places(numer, denom, places, f)
    }
}
