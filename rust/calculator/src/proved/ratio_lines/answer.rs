// Erased from crates/ratio_lines/src/answer.rt by rust/erase: not to be edited.
//! The answer to one line: its operands are read, its operators are applied, or it is refused.

use crate::proved::ratio_lines::operand::first_operand;
use crate::proved::ratio_lines::operator::{Operator, apply_operator, operator_named};
use crate::proved::ratio_lines::parts::{LONGEST_LINE, all_are_terms, first_part, first_short_part};
use either::Either;
use bakhsney::proved::num_rational::{RatioErrorKind, Rational64};

/// The text of an answer, without a line end. On the left is a known text, on the
/// right a number that is printed in decimal.
pub type AnswerText = Either<&'static str, Rational64>;

const WANT_THREE: &str = "error: want LEFT OP RIGHT";

/// The answer to a line that is too long.
pub const TOO_LONG: &str = "error: line too long";

const UNKNOWN_OPERATOR: &str = "error: unknown operator";

/// The outcome of an operator after others. If these gave a text, it stays the answer.
///
/// # Conditions
///
/// The proof requires of the caller:
///
/// - `left_positive`: `MatchEither so_far (λ _. ⊤) (λ left. pos 0 <ℤ denominator left)`
/// - `right_positive`: `pos 0 <ℤ denominator right`
#[inline]
fn go_on(so_far: AnswerText, operator: Operator, right: Rational64) -> AnswerText {
    match so_far {
        Either::Left(text) => Either::Left(text),
        Either::Right(so_far) => apply_operator(operator, so_far, right),
    }
}

/// The answer that refuses the first operand.
#[inline]
fn left_refusal(kind: RatioErrorKind) -> AnswerText {
    Either::Left(match kind {
        RatioErrorKind::ParseError => "error: left: failed to parse integer",
        RatioErrorKind::ZeroDenominator => "error: left: zero value denominator",
    })
}

/// The answer that refuses a later operand.
#[inline]
fn right_refusal(kind: RatioErrorKind) -> AnswerText {
    Either::Left(match kind {
        RatioErrorKind::ParseError => "error: right: failed to parse integer",
        RatioErrorKind::ZeroDenominator => "error: right: zero value denominator",
    })
}

/// The outcome of an operator between two operands, or the answer that
/// refuses the first operand that is refused.
#[inline(always)]
fn first_outcome(left: &str, operator: Operator, right: &str) -> Result<AnswerText, AnswerText> {
    let first = match Rational64::from_str(left) {
        Ok(first) => first,
        Err(refusal) => return Err(left_refusal(refusal.kind())),
    };
    match Rational64::from_str(right) {
        Ok(second) => Ok(apply_operator(operator, first, second)),
        Err(refusal) => Err(right_refusal(refusal.kind())),
    }
}

/// The answer to one operator between two operands.
#[inline]
pub fn answer_two(left: &str, operator: Operator, right: &str) -> AnswerText {
    match first_outcome(left, operator, right) {
        Ok(outcome) => outcome,
        Err(refusal) => refusal,
    }
}

/// The answer to operators between operands. Operators apply from left to right. Each operand is read
/// once. It is read even if the answer is already known, since a refusal comes first: `1 / 0 + x` has
/// the answer `error: right: failed to parse integer`.
///
/// # Conditions
///
/// The proof requires of the caller:
///
/// - `AreChained operator (operator_parts (parts_of parts))`
#[inline]
fn answer_texts(left: &str, operator: Operator, right: &str, parts: Option<&str>) -> AnswerText {
    let mut outcome = match first_outcome(left, operator, right) {
        Ok(outcome) => outcome,
        Err(refusal) => return refusal,
    };
    let mut rest = parts;
    while let Some(text) = rest {
        let (part, after) = first_short_part(text);
        let after = match after {
            Some(after) => after,
            _ => {
                return outcome;
            }
        };
        let next_operator = match operator_named(part) {
            Some(next_operator) => next_operator,
            _ => {
                unreachable!()
            }
        };
        let (operand, after) = first_operand(after);
        let next = match operand {
            Ok(next) => next,
            Err(refusal) => return right_refusal(refusal.kind()),
        };
        outcome = go_on(outcome, next_operator, next);
        rest = after;
    }
    outcome
}

/// The refusal of the operators, if they are refused: an unknown one, or else `cmp` before another one.
#[inline]
fn operators_refusal(first: Operator, parts: Option<&str>) -> Option<&'static str> {
    let mut last = first;
    let mut is_cmp_last = true;
    let mut rest = parts;
    while let Some(text) = rest {
        let (part, after) = first_short_part(text);
        let operator = match operator_named(part) {
            Some(operator) => operator,
            _ => {
                return Some(UNKNOWN_OPERATOR);
            }
        };
        is_cmp_last &= !last.is_cmp();
        last = operator;
        rest = match after {
            Some(after) => first_part(after).1,
            None => None,
        };
    }
    if is_cmp_last {
        None
    } else {
        Some("error: cmp must be last")
    }
}

/// Whether the parts are a chain: none is empty, and those after the first three come in pairs.
#[inline]
fn is_chain(left: &str, operator: &str, right: &str, parts: Option<&str>) -> bool {
    !left.is_empty() && !operator.is_empty() && !right.is_empty() && all_are_terms(parts)
}

/// The answer to at least three parts.
#[inline]
fn answer_chain(left: &str, operator: &str, right: &str, parts: Option<&str>) -> AnswerText {
    if !is_chain(left, operator, right, parts) {
        return Either::Left(WANT_THREE);
    }
    let first = match operator_named(operator) {
        Some(first) => first,
        _ => {
            return Either::Left(UNKNOWN_OPERATOR);
        }
    };
    match operators_refusal(first, parts) {
        Some(refusal) => Either::Left(refusal),
        None => answer_texts(left, first, right, parts),
    }
}

/// The answer to a text whose parts have single spaces between them.
#[inline]
fn answer_parts(text: &str) -> AnswerText {
    let (left, rest) = match first_part(text) {
        (left, Some(rest)) => (left, rest),
        _ => {
            return Either::Left(WANT_THREE);
        }
    };
    let (operator, rest) = match first_short_part(rest) {
        (operator, Some(rest)) => (operator, rest),
        _ => {
            return Either::Left(WANT_THREE);
        }
    };
    let (right, parts) = first_part(rest);
    answer_chain(left, operator, right, parts)
}

/// The answer to a line without its line end. A carriage return at its end counts as
/// a byte of the line, and then it is dropped.
#[inline]
pub fn answer(line: &[u8]) -> AnswerText {
    if line.len() > LONGEST_LINE {
        return Either::Left(TOO_LONG);
    }
    let text = match core::str::from_utf8(line) {
        Ok(text) => text,
        _ => {
            return Either::Left("error: not UTF-8");
        }
    };
    answer_parts(text.strip_suffix('\r').unwrap_or(text))
}
