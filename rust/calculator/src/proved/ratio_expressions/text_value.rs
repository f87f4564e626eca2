// Erased from crates/ratio_expressions/src/text_value.rt by rust/erase: not to be edited.
//! The value of a text, or its first refusal.

use bakhsney::memory::Global;
use crate::proved::ratio_expressions::evaluation::value_of_steps;
use crate::proved::ratio_expressions::expression::tree_of;
use crate::proved::ratio_expressions::names::Names;
use crate::proved::ratio_expressions::refusal::ValueError;
use crate::proved::ratio_expressions::value::Value;

/// The value of a text, with what each name is worth, or its first refusal. `1/3 + 0.25` is 7/12, and `2 + x`, without an `x`, is
/// refused at 4.
#[inline]
pub fn value_of(alloc: Global, text: &[u8], names: &Names) -> Result<Value, ValueError> {
    match tree_of(alloc, text) {
        Ok(steps) => value_of_steps(alloc, text, names, &steps),
        Err(error) => Err(error),
    }
}
