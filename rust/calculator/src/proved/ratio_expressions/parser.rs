// Erased from crates/ratio_expressions/src/parser.rt by rust/erase: not to be edited.
//! The tree of a list of tokens, or the first token that no expression has there.
use bakhsney::memory::{AllocError, Global, Vec};

mod error;
mod mark;

use crate::proved::ratio_expressions::parser::mark::{
    Mark, left_level_of, level_of, level_of_mark, room_of_mark, step_of_mark,
};
use crate::proved::ratio_expressions::step::{Call, Step};
use crate::proved::ratio_expressions::token::{Kind, Operator, Sign, Span, Token};
pub use error::ParseError;

/// The tree of a list of tokens, in postfix order, or the first token that no expression has there.
#[inline]
pub fn parse(alloc: Global, tokens: &[Token]) -> Result<Vec<Step>, ParseError> {
    read_all(alloc, tokens)
}

// The steps of all tokens.
#[inline]
fn read_all(alloc: Global, tokens: &[Token]) -> Result<Vec<Step>, ParseError> {
    let mut marks = Vec::new(alloc);
    let mut steps = Vec::with_capacity(alloc, tokens.len())?;
    let mut wants = true;
    for (at, token) in tokens.iter().enumerate() {
        match read_token(*token, &mut marks, &mut steps, wants)? {
            None => return Err(ParseError::RefusedToken(at)),
            Some(next) => wants = next,
        }
    }
    if wants {
        return Err(ParseError::RefusedToken(tokens.len()));
    }
    settle_marks(1, &mut marks, &mut steps)?;
    if !marks.is_empty() {
        return Err(ParseError::RefusedToken(tokens.len()));
    }
    Ok(steps)
}

// Reads one token. The result is whether an operand comes next, or `None` if the token is refused.
#[inline]
fn read_token(
    token: Token,
    marks: &mut Vec<Mark>,
    steps: &mut Vec<Step>,
    wants: bool,
) -> Result<Option<bool>, AllocError> {
    if !wants {
        return read_behind(token, marks, steps);
    }
    match token.kind {
        Kind::Number => put_operand(Step::Number(token.span), steps),
        Kind::Name => put_operand(Step::Name(token.span), steps),
        Kind::Operator(Operator::Add) => put_mark(Mark::Prefix(Sign::Plus, token.span), marks),
        Kind::Operator(Operator::Subtract) => {
            put_mark(Mark::Prefix(Sign::Minus, token.span), marks)
        }
        Kind::Open => put_mark(Mark::Opened(token.span), marks),
        Kind::Operator(_) | Kind::Close | Kind::Comma => Ok(None),
    }
}

// Reads one token behind an operand.
#[inline]
fn read_behind(
    token: Token,
    marks: &mut Vec<Mark>,
    steps: &mut Vec<Step>,
) -> Result<Option<bool>, AllocError> {
    match token.kind {
        Kind::Operator(operator) => {
            settle_marks(left_level_of(operator), marks, steps)?;
            if level_of(operator) < room_of(marks) {
                return Ok(None);
            }
            put_mark(Mark::Half(operator, token.span), marks)
        }
        Kind::Close => {
            settle_marks(2, marks, steps)?;
            read_close(token.span, marks, steps)
        }
        Kind::Comma => {
            settle_marks(2, marks, steps)?;
            read_comma(token.span, marks)
        }
        Kind::Open => read_call(token.span, marks, steps),
        Kind::Number | Kind::Name => Ok(None),
    }
}

// Puts down an operand. An operator comes next.
#[inline]
fn put_operand(operand: Step, steps: &mut Vec<Step>) -> Result<Option<bool>, AllocError> {
    steps.push(operand)?;
    Ok(Some(false))
}

// Puts down a mark. An operand comes next.
#[inline]
fn put_mark(mark: Mark, marks: &mut Vec<Mark>) -> Result<Option<bool>, AllocError> {
    marks.push(mark)?;
    Ok(Some(true))
}

// How tightly an expression must bind to stand right of what waits last.
#[inline]
fn room_of(marks: &[Mark]) -> u8 {
    match marks {
        [.., mark] => room_of_mark(*mark),
        [] => 0,
    }
}

// Reads an opening parenthesis behind an operand, if the operand is a name.
#[inline]
fn read_call(
    span: Span,
    marks: &mut Vec<Mark>,
    steps: &mut Vec<Step>,
) -> Result<Option<bool>, AllocError> {
    match steps.pop() {
        Some(Step::Name(name)) => put_mark(Mark::Called(name, span, 1), marks),
        _ => Ok(None),
    }
}

// Reads a comma, if what waits last is a call. No memory has as many tokens as could not be counted.
#[inline]
fn read_comma(span: Span, marks: &mut Vec<Mark>) -> Result<Option<bool>, AllocError> {
    match marks.pop() {
        Some(Mark::Called(name, open, count)) => {
            let more = count.checked_add(1).ok_or(AllocError)?;
            marks.push(Mark::Called(name, open, more))?;
            put_mark(Mark::Comma(span), marks)
        }
        _ => Ok(None),
    }
}

// Reads a closing parenthesis, if what waits last is an opening one or a call.
#[inline]
fn read_close(
    span: Span,
    marks: &mut Vec<Mark>,
    steps: &mut Vec<Step>,
) -> Result<Option<bool>, AllocError> {
    match marks.pop() {
        Some(Mark::Opened(open)) => put_operand(Step::Group(open, span), steps),
        Some(Mark::Called(name, open, arguments)) => {
            let call = Call {
                name,
                opening: open,
                closing: span,
                arguments,
            };
            put_operand(Step::Call(call), steps)
        }
        _ => Ok(None),
    }
}

// Makes the marks that bind at least so tightly steps, from the last on.
#[inline]
fn settle_marks(least: u8, marks: &mut Vec<Mark>, steps: &mut Vec<Step>) -> Result<(), AllocError> {
    while let Some(mark) = marks.last() {
        if level_of_mark(*mark) < least {
            return Ok(());
        }
        steps.push(step_of_mark(*mark))?;
        marks.pop();
    }
    Ok(())
}
