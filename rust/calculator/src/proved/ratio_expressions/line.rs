// Erased from crates/ratio_expressions/src/line.rt by rust/erase: not to be edited.
//! The value of a line, which gives it names: `x = 3/7`.

use bakhsney::memory::{AllocError, Global};
use crate::proved::ratio_expressions::assignment::assignment;
use crate::proved::ratio_expressions::evaluation::value_of_steps;
use crate::proved::ratio_expressions::expression::tree_of;
use crate::proved::ratio_expressions::names::Names;
use crate::proved::ratio_expressions::refusal::ValueError;
use crate::proved::ratio_expressions::token::Span;
use crate::proved::ratio_expressions::value::Value;

/// The value of a line, or its first refusal. `x = 3/7` gives the value the name `x`, and each line gives its value the name `ans`. After a
/// refusal the names are what they were. After a want of memory each name has the value that it had, or the new one.
#[inline]
pub fn value_of_line(alloc: Global, text: &[u8], names: &mut Names) -> Result<Value, ValueError> {
    let steps = tree_of(alloc, text)?;
    let (name, expression) = assignment(&steps);
    let value = value_of_steps(alloc, text, names, expression)?;
    put_target(alloc, text, names, name, &value)?;
    put_copy(alloc, names, b"ans", &value)?;
    Ok(value)
}

// Gives a copy of a value the name at a place, if there is one.
#[inline]
fn put_target(
    alloc: Global,
    text: &[u8],
    names: &mut Names,
    name: Option<Span>,
    value: &Value,
) -> Result<(), AllocError> {
    match name {
        Some(span) => put_copy(alloc, names, &text[span.start..span.end], value),
        None => Ok(()),
    }
}

// Gives a copy of a value a name.
#[inline]
fn put_copy(alloc: Global, names: &mut Names, name: &[u8], value: &Value) -> Result<(), AllocError> {
    let copy = value.copy(alloc)?;
    names.set(alloc, name, copy)
}
