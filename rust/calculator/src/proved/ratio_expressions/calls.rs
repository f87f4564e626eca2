// Erased from crates/ratio_expressions/src/calls.rt by rust/erase: not to be edited.
//! What a call such as `max(1, 2)` gives of its arguments, or why it refuses them.

use bakhsney::memory::{AllocError, Global, Vec};
use crate::proved::ratio_expressions::function::{Function, function_named, takes};
use crate::proved::ratio_expressions::limit::fit_together;
use crate::proved::ratio_expressions::refusal::Reason;
use crate::proved::ratio_expressions::value::Value;
use bakhsney::proved::ratio_big::BigFraction;
use bakhsney::proved::ratio_decimal::rounding_rule::Rounding;

use std::cmp::Ordering;

/// What the function with this name gives of its arguments, or why it refuses them.
#[inline]
pub(crate) fn called(
    alloc: Global,
    name: &[u8],
    arguments: &[Value],
) -> Result<Result<Value, Reason>, AllocError> {
    let function = match function_named(name) {
        Some(function) => function,
        _ => {
            return Ok(Err(Reason::UnknownCall));
        }
    };
    if !takes(function, arguments.len()) {
        return Ok(Err(Reason::ArgumentCount));
    }
    let numbers = match numbers_in(alloc, arguments)? {
        Some(numbers) => numbers,
        _ => {
            return Ok(Err(Reason::NotNumber));
        }
    };
    match of_arguments(alloc, function, &numbers)? {
        Ok(result) => Ok(Ok(Value::Number(result))),
        Err(reason) => Ok(Err(reason)),
    }
}

// The numbers that the values are, or `None` if one is true or false.
#[inline]
fn numbers_in(alloc: Global, values: &[Value]) -> Result<Option<Vec<BigFraction>>, AllocError> {
    let mut numbers = Vec::new(alloc);
    for value in values {
        match value {
            Value::Number(x) => numbers.push(x.copy(alloc)?)?,
            Value::Truth(_) => return Ok(None),
        }
    }
    Ok(Some(numbers))
}

// What the function gives of its arguments, of which it takes so many, or why it refuses them: they may be too large together.
#[inline]
fn of_arguments(
    alloc: Global,
    function: Function,
    numbers: &[BigFraction],
) -> Result<Result<BigFraction, Reason>, AllocError> {
    if !fit_together(alloc, numbers)? {
        return Ok(Err(Reason::TooLarge));
    }
    of_numbers(alloc, function, numbers)
}

// What the function gives of numbers, of which it takes so many, or why it refuses them.
#[inline]
fn of_numbers(
    alloc: Global,
    function: Function,
    numbers: &[BigFraction],
) -> Result<Result<BigFraction, Reason>, AllocError> {
    match function {
        Function::Abs => Ok(Ok(numbers[0].abs(alloc)?)),
        Function::Floor => Ok(Ok(numbers[0].floor(alloc)?)),
        Function::Ceil => Ok(Ok(numbers[0].ceil(alloc)?)),
        Function::Round => Ok(Ok(numbers[0].round(alloc)?)),
        Function::Trunc => Ok(Ok(numbers[0].trunc(alloc)?)),
        Function::Cents => Ok(Ok(cents(alloc, &numbers[0])?)),
        Function::Gcd => Ok(Ok(common_divisor(alloc, numbers)?)),
        Function::Lcm => Ok(Ok(common_multiple(alloc, numbers)?)),
        Function::Min => Ok(Ok(extreme(alloc, numbers, Ordering::Less)?)),
        Function::Max => Ok(Ok(extreme(alloc, numbers, Ordering::Greater)?)),
        Function::Nearest => nearest(alloc, &numbers[0], &numbers[1]),
        Function::Between => between(alloc, &numbers[0], &numbers[1]),
    }
}

// The nearest fraction with a denominator from 1 to `most`.
#[inline]
fn nearest(
    alloc: Global,
    x: &BigFraction,
    most: &BigFraction,
) -> Result<Result<BigFraction, Reason>, AllocError> {
    match x.nearest(alloc, most)? {
        Some(nearest) => Ok(Ok(nearest)),
        None => Ok(Err(Reason::BoundBelowOne)),
    }
}

// The simplest fraction strictly between two numbers, in either order.
#[inline]
fn between(
    alloc: Global,
    x: &BigFraction,
    y: &BigFraction,
) -> Result<Result<BigFraction, Reason>, AllocError> {
    if let Some(simplest) = BigFraction::simplest_between(alloc, x, y)? {
        return Ok(Ok(simplest));
    }
    match BigFraction::simplest_between(alloc, y, x)? {
        Some(simplest) => Ok(Ok(simplest)),
        None => Ok(Err(Reason::NothingBetween)),
    }
}

// The nearest multiple of 1/100, a half rounded away from 0.
#[inline]
fn cents(alloc: Global, x: &BigFraction) -> Result<BigFraction, AllocError> {
    x.round_to(alloc, 100, Rounding::HalfAway)
}

// The greatest common divisor of the numbers.
#[inline]
fn common_divisor(alloc: Global, numbers: &[BigFraction]) -> Result<BigFraction, AllocError> {
    let mut divisor = numbers[0].gcd(alloc, &numbers[0])?;
    for next in 1..numbers.len() {
        divisor = divisor.gcd(alloc, &numbers[next])?;
    }
    Ok(divisor)
}

// The least common multiple of the numbers.
#[inline]
fn common_multiple(alloc: Global, numbers: &[BigFraction]) -> Result<BigFraction, AllocError> {
    let mut multiple = numbers[0].lcm(alloc, &numbers[0])?;
    for next in 1..numbers.len() {
        multiple = multiple.lcm(alloc, &numbers[next])?;
    }
    Ok(multiple)
}

// The least of the numbers for `Less`, and the greatest for `Greater`.
#[inline]
fn extreme(
    alloc: Global,
    numbers: &[BigFraction],
    side: Ordering,
) -> Result<BigFraction, AllocError> {
    let mut at = 0;
    for next in 1..numbers.len() {
        if numbers[next].compare(alloc, &numbers[at])? == side {
            at = next;
        }
    }
    numbers[at].copy(alloc)
}
