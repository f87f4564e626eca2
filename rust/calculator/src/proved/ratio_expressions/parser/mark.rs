// Erased from crates/ratio_expressions/src/parser/mark.rt by rust/erase: not to be edited.
//! `Mark`: an operator or a parenthesis that waits for what is right of it.

use crate::proved::ratio_expressions::step::{Call, Step};
use crate::proved::ratio_expressions::token::{Operator, Sign, Spacing, Span};

// How tightly a sign before an operand binds: less tightly than `^`, and more tightly than `*`.
const SIGN_LEVEL: u8 = 7;

// How tightly arguments with a comma between them bind: less tightly than `+`, and more tightly than a comparison, which is no argument.
const COMMA_LEVEL: u8 = 2;

/// An operator or an opening parenthesis that waits for what is right of it.
#[derive(Clone, Copy, PartialEq, Debug)]
pub(crate) enum Mark {
    /// A sign before an operand.
    Prefix(Sign, Span),
    /// An operator, whose left side is read.
    Half(Operator, Span),
    /// An opening parenthesis.
    Opened(Span),
    /// A name and the opening parenthesis of its call, and the number of arguments so far, with the one that is begun.
    Called(Span, Span, usize),
    /// A comma, whose left side is read.
    Comma(Span),
}

/// The step that a mark becomes when what is right of it is read.
#[inline]
pub(crate) fn step_of_mark(mark: Mark) -> Step {
    match mark {
        Mark::Prefix(sign, span) => Step::Sign(sign, span),
        Mark::Half(operator, span) => Step::Apply(operator, span),
        Mark::Opened(span) => Step::Group(span, span),
        Mark::Called(name, open, arguments) => Step::Call(Call {
            name,
            opening: open,
            closing: open,
            arguments,
        }),
        Mark::Comma(span) => Step::Comma(span),
    }
}

/// How tightly the expression binds that a mark becomes.
#[inline]
pub(crate) fn level_of_mark(mark: Mark) -> u8 {
    match mark {
        Mark::Prefix(_, _) => SIGN_LEVEL,
        Mark::Half(operator, _) => level_of(operator),
        Mark::Opened(_) | Mark::Called(_, _, _) => 0,
        Mark::Comma(_) => COMMA_LEVEL,
    }
}

/// How tightly an expression must bind to stand right of a mark.
#[inline]
pub(crate) fn room_of_mark(mark: Mark) -> u8 {
    match mark {
        Mark::Prefix(_, _) => SIGN_LEVEL,
        Mark::Half(operator, _) => right_level_of(operator),
        Mark::Opened(_) | Mark::Comma(_) => 3,
        Mark::Called(_, _, _) => COMMA_LEVEL,
    }
}

/// How tightly an operator binds.
#[inline]
pub(crate) fn level_of(operator: Operator) -> u8 {
    match operator {
        Operator::Less
        | Operator::AtMost
        | Operator::Equal
        | Operator::NotEqual
        | Operator::AtLeast
        | Operator::Greater => 1,
        Operator::Add | Operator::Subtract => 3,
        Operator::Divide(Spacing::Wide) | Operator::Remainder(Spacing::Wide) => 4,
        Operator::Multiply | Operator::Divide(Spacing::Half) | Operator::Remainder(_) => 5,
        Operator::Divide(Spacing::Tight) => 6,
        Operator::Power => 8,
    }
}

/// How tightly the expression on the left of an operator must bind.
#[inline]
pub(crate) fn left_level_of(operator: Operator) -> u8 {
    match level_of(operator) {
        1 | 3 => 3,
        4 | 5 => 4,
        6 => 5,
        _ => 9,
    }
}

// How tightly the expression on the right of an operator must bind.
#[inline]
fn right_level_of(operator: Operator) -> u8 {
    match level_of(operator) {
        1 => 3,
        3 => 4,
        4 => 6,
        _ => 7,
    }
}
