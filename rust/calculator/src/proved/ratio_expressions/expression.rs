// Erased from crates/ratio_expressions/src/expression.rt by rust/erase: not to be edited.
//! The tree of a text, or its refusal, and the column of a place.

use bakhsney::memory::{Global, Vec};
use crate::proved::ratio_expressions::depth::first_too_deep;
use crate::proved::ratio_expressions::lexer::tokens;
use crate::proved::ratio_expressions::parser::{ParseError, parse};
use crate::proved::ratio_expressions::refusal::{Reason, ValueError, refused};
use crate::proved::ratio_expressions::step::Step;

/// The tree of a text, in postfix order, or its refusal: `2 + 3 * 4` is 2, 3, 4, `*`, `+`, and `2 + )` is refused at 4. Whatever else a
/// text has, it is refused where more than 1,000 parentheses are open: who walks a tree may call itself for each.
#[inline]
pub fn tree_of(alloc: Global, text: &[u8]) -> Result<Vec<Step>, ValueError> {
    let cut = tokens(alloc, text)?;
    if let Some(deep) = first_too_deep(&cut.tokens) {
        return Err(refused(Reason::TooDeep, cut.tokens[deep].span.start));
    }
    match parse(alloc, &cut.tokens) {
        Ok(steps) => {
            if cut.end == text.len() {
                Ok(steps)
            } else {
                Err(refused(Reason::NoExpression, cut.end))
            }
        }
        Err(ParseError::RefusedToken(at)) => {
            if at < cut.tokens.len() {
                Err(refused(Reason::NoExpression, cut.tokens[at].span.start))
            } else {
                Err(refused(Reason::NoExpression, cut.end))
            }
        }
        Err(ParseError::Memory) => Err(ValueError::Memory),
    }
}

/// The column of a place in a text in UTF-8, for a caret: 1 and the number of characters before the place.
///
/// # Conditions
///
/// The proof requires of the caller:
///
/// - `place ≤ length text.now`
#[inline]
pub fn column(text: &[u8], place: usize) -> usize {
    let before = text[..place]
        .iter()
        .filter(|byte| **byte < 0x80 || **byte >= 0xC0);
    before.count() + 1
}
