// Erased from crates/ratio_expressions/src/replies/reading.rt by rust/erase: not to be edited.
//! A value behind its line as that was read: `1/2 / (1/3) = 3/2`.

use bakhsney::memory::{AllocError, Global, Vec};
use crate::proved::ratio_expressions::replies::form::Form;
use crate::proved::ratio_expressions::replies::written::value_text;
use crate::proved::ratio_expressions::slashes::read_as;
use crate::proved::ratio_expressions::value::Value;

/// The text of a line's value in a form. In `Both` it is behind the line as that was read, if a chain of its slashes is taken whole,
/// as in `1/2 / (1/3) = 3/2 = 1.5`. An error means that an allocation failed.
#[inline]
pub(crate) fn answer_text(
    alloc: Global,
    line: &[u8],
    value: &Value,
    form: Form,
) -> Result<Vec<u8>, AllocError> {
    match form {
        Form::Both => with_reading(alloc, line, value),
        Form::Fraction | Form::Decimal(_) | Form::Mixed | Form::Fields(_) | Form::Float => {
            value_text(alloc, value, form)
        }
    }
}

// The value with its decimal beside it, behind its line if that is shown.
#[inline]
fn with_reading(alloc: Global, line: &[u8], value: &Value) -> Result<Vec<u8>, AllocError> {
    let text = value_text(alloc, value, Form::Both)?;
    match read_as(alloc, line)? {
        Some(shown) => behind_line(shown, value, &text),
        None => Ok(text),
    }
}

// The value's text behind the line as it was read.
#[inline]
fn behind_line(mut shown: Vec<u8>, value: &Value, text: &[u8]) -> Result<Vec<u8>, AllocError> {
    shown.extend_from_slice(between(value))?;
    shown.extend_from_slice(text)?;
    Ok(shown)
}

// What is between the line and its value.
#[inline]
fn between(value: &Value) -> &'static [u8] {
    match value {
        Value::Number(_) => b" = ",
        Value::Truth(_) => b": ",
    }
}
