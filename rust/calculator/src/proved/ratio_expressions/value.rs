// Erased from crates/ratio_expressions/src/value.rt by rust/erase: not to be edited.
//! `Value`: what an expression is worth.

use bakhsney::memory::{AllocError, Global};
use bakhsney::proved::ratio_big::BigFraction;

/// What an expression is worth: a number, or true or false, as a comparison is.
pub enum Value {
    Number(BigFraction),
    Truth(bool),
}

impl Value {
    /// The same value once more. An error means that an allocation failed.
    #[inline]
    pub fn copy(&self, alloc: Global) -> Result<Value, AllocError> {
        match self {
            Value::Number(x) => Ok(Value::Number(x.copy(alloc)?)),
            Value::Truth(b) => Ok(Value::Truth(*b)),
        }
    }
}
