// Erased from crates/ratio_expressions/src/evaluation.rt by rust/erase: not to be edited.
//! The value of the steps of a tree, over a stack of values.

use bakhsney::memory::{AllocError, Global, Vec};
use crate::proved::ratio_expressions::calls::called;
use crate::proved::ratio_expressions::names::Names;
use crate::proved::ratio_expressions::number::number_in;
use crate::proved::ratio_expressions::operation::{applied, signed};
use crate::proved::ratio_expressions::refusal::{Reason, ValueError, refused};
use crate::proved::ratio_expressions::step::{Call, Step};
use crate::proved::ratio_expressions::value::Value;

/// The value of the steps of a tree, or its refusal.
///
/// # Conditions
///
/// The proof requires of the caller:
///
/// - `tree`: `AreOfTree steps.now`
/// - `within`: `All (IsStepWithin text.now) steps.now`
#[inline]
pub(crate) fn value_of_steps(
    alloc: Global,
    text: &[u8],
    names: &Names,
    steps: &[Step],
) -> Result<Value, ValueError> {
    let mut stack = Vec::new(alloc);
    for step in steps {
        take(alloc, text, names, *step, &mut stack)?;
    }
    Ok(stack.pop().unwrap())
}

// Takes one step.
#[inline]
fn take(
    alloc: Global,
    text: &[u8],
    names: &Names,
    step: Step,
    stack: &mut Vec<Value>,
) -> Result<(), ValueError> {
    match step {
        Step::Number(span) => {
            let number = number_in(alloc, &text[span.start..span.end])?;
            put(stack, number, span.start)
        }
        Step::Name(span) => {
            let value = value_named(alloc, names, &text[span.start..span.end])?;
            put(stack, value, span.start)
        }
        Step::Sign(sign, span) => {
            let operand = stack.pop().unwrap();
            let value = signed(alloc, sign, operand)?;
            put(stack, value, span.start)
        }
        Step::Apply(operator, span) => {
            let right = stack.pop().unwrap();
            let left = stack.pop().unwrap();
            let value = applied(alloc, operator, &left, &right)?;
            put(stack, value, span.start)
        }
        Step::Group(_, _) => Ok(()),
        Step::Comma(_) => Ok(()),
        Step::Call(call) => take_call(alloc, text, call, stack),
    }
}

// Takes the step of a call, and with it as many values as it has arguments.
#[inline]
fn take_call(
    alloc: Global,
    text: &[u8],
    call: Call,
    stack: &mut Vec<Value>,
) -> Result<(), ValueError> {
    let first = stack.len() - call.arguments;
    let name = &text[call.name.start..call.name.end];
    let value = called(alloc, name, &stack[first..])?;
    stack.truncate(first);
    put(stack, value, call.name.start)
}

// Puts down a value that was found, or refuses the place for the reason that there is none.
#[inline]
fn put(stack: &mut Vec<Value>, found: Result<Value, Reason>, place: usize) -> Result<(), ValueError> {
    match found {
        Ok(value) => match stack.push(value) {
            Ok(()) => Ok(()),
            Err(_) => Err(ValueError::Memory),
        },
        Err(reason) => Err(refused(reason, place)),
    }
}

// The value with a name, if it has one.
#[inline]
fn value_named(
    alloc: Global,
    names: &Names,
    name: &[u8],
) -> Result<Result<Value, Reason>, AllocError> {
    match names.get(name) {
        Some(value) => Ok(Ok(value.copy(alloc)?)),
        None => Ok(Err(Reason::UnknownName)),
    }
}
