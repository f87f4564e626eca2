// Erased from crates/ratio_expressions/src/replies/written.rt by rust/erase: not to be edited.
//! The text of a value in a form.

use bakhsney::memory::{AllocError, Global, Vec};
use crate::proved::ratio_expressions::replies::both::both_text;
use crate::proved::ratio_expressions::replies::fields::fields_text;
use crate::proved::ratio_expressions::replies::float::float_text;
use crate::proved::ratio_expressions::replies::form::Form;
use crate::proved::ratio_expressions::replies::mixed::mixed_text;
use crate::proved::ratio_expressions::value::Value;
use bakhsney::proved::ratio_big::BigFraction;
use bakhsney::proved::ratio_decimal::rounding_rule::Rounding;

/// The text of a value in a form: `1 5/12` for 17/12 in `Mixed`. An error means that an allocation failed.
#[inline]
pub fn value_text(alloc: Global, value: &Value, form: Form) -> Result<Vec<u8>, AllocError> {
    let x = match value {
        Value::Number(x) => x,
        Value::Truth(true) => return Vec::from_slice(alloc, b"true"),
        Value::Truth(false) => return Vec::from_slice(alloc, b"false"),
    };
    match form {
        Form::Fraction => fraction_text(alloc, x),
        Form::Decimal(places) => decimal_text(alloc, x, places),
        Form::Mixed => mixed_text(alloc, x),
        Form::Fields(places) => fields_text(alloc, x, places),
        Form::Both => both_text(alloc, x),
        Form::Float => float_text(alloc, x),
    }
}

/// The text of a fraction: `17/12`, and `5` for 5/1.
#[inline]
pub(crate) fn fraction_text(alloc: Global, x: &BigFraction) -> Result<Vec<u8>, AllocError> {
    Ok(x.to_text(alloc)?.into_bytes())
}

/// The decimal with so many places, rounded half away from zero.
#[inline]
pub(crate) fn decimal_text(
    alloc: Global,
    x: &BigFraction,
    places: u32,
) -> Result<Vec<u8>, AllocError> {
    Ok(x.decimal(alloc, places, Rounding::HalfAway)?.into_bytes())
}
