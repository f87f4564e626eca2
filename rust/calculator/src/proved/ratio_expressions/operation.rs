// Erased from crates/ratio_expressions/src/operation.rt by rust/erase: not to be edited.
//! What an operator gives of two values, or why it refuses them.

use bakhsney::memory::{AllocError, Global};
use crate::proved::ratio_expressions::limit::pair_fits;
use crate::proved::ratio_expressions::power::power;
use crate::proved::ratio_expressions::refusal::Reason;
use crate::proved::ratio_expressions::token::{Operator, Sign};
use crate::proved::ratio_expressions::value::Value;
use bakhsney::proved::ratio_big::BigFraction;

/// The value with a sign before it, or why it has none.
#[inline]
pub(crate) fn signed(
    alloc: Global,
    sign: Sign,
    value: Value,
) -> Result<Result<Value, Reason>, AllocError> {
    match value {
        Value::Number(x) => match sign {
            Sign::Plus => Ok(Ok(Value::Number(x))),
            Sign::Minus => Ok(Ok(Value::Number(x.negate(alloc)?))),
        },
        Value::Truth(_) => Ok(Err(Reason::NotNumber)),
    }
}

/// What the operator gives of two values, or why it refuses them.
#[inline]
pub(crate) fn applied(
    alloc: Global,
    operator: Operator,
    left: &Value,
    right: &Value,
) -> Result<Result<Value, Reason>, AllocError> {
    let x = match left {
        Value::Number(x) => x,
        _ => {
            return Ok(Err(Reason::NotNumber));
        }
    };
    let y = match right {
        Value::Number(y) => y,
        _ => {
            return Ok(Err(Reason::NotNumber));
        }
    };
    if !takes_numbers(alloc, operator, x, y)? {
        return Ok(Err(Reason::TooLarge));
    }
    of_numbers(alloc, operator, x, y)
}

// Whether the two numbers are not too large for the operator. A comparison makes no number, and a power has a rule of its own.
#[inline]
fn takes_numbers(
    alloc: Global,
    operator: Operator,
    x: &BigFraction,
    y: &BigFraction,
) -> Result<bool, AllocError> {
    match operator {
        Operator::Add
        | Operator::Subtract
        | Operator::Multiply
        | Operator::Divide(_)
        | Operator::Remainder(_) => pair_fits(alloc, x, y),
        Operator::Less
        | Operator::AtMost
        | Operator::Equal
        | Operator::NotEqual
        | Operator::AtLeast
        | Operator::Greater
        | Operator::Power => Ok(true),
    }
}

// What the operator gives of two numbers that are not too large for it, or why it refuses them.
#[inline]
fn of_numbers(
    alloc: Global,
    operator: Operator,
    x: &BigFraction,
    y: &BigFraction,
) -> Result<Result<Value, Reason>, AllocError> {
    match operator {
        Operator::Less => Ok(Ok(Value::Truth(x.compare(alloc, y)?.is_lt()))),
        Operator::AtMost => Ok(Ok(Value::Truth(x.compare(alloc, y)?.is_le()))),
        Operator::Equal => Ok(Ok(Value::Truth(x.compare(alloc, y)?.is_eq()))),
        Operator::NotEqual => Ok(Ok(Value::Truth(x.compare(alloc, y)?.is_ne()))),
        Operator::AtLeast => Ok(Ok(Value::Truth(x.compare(alloc, y)?.is_ge()))),
        Operator::Greater => Ok(Ok(Value::Truth(x.compare(alloc, y)?.is_gt()))),
        Operator::Add => Ok(Ok(Value::Number(x.add(alloc, y)?))),
        Operator::Subtract => Ok(Ok(Value::Number(x.subtract(alloc, y)?))),
        Operator::Multiply => Ok(Ok(Value::Number(x.multiply(alloc, y)?))),
        Operator::Divide(_) => match x.divide(alloc, y)? {
            Some(quotient) => Ok(Ok(Value::Number(quotient))),
            None => Ok(Err(Reason::ZeroDivisor)),
        },
        Operator::Remainder(_) => match x.remainder(alloc, y)? {
            Some(rest) => Ok(Ok(Value::Number(rest))),
            None => Ok(Err(Reason::ZeroDivisor)),
        },
        Operator::Power => power(alloc, x, y),
    }
}
