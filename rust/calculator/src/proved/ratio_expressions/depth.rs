// Erased from crates/ratio_expressions/src/depth.rt by rust/erase: not to be edited.
//! The first parenthesis that is too deep.

use crate::proved::ratio_expressions::token::{Kind, Token};

/// How many parentheses may be open at once, those of calls too.
pub const MOST_OPEN: usize = 1000;

/// The number of the first token with which more than `MOST_OPEN` parentheses are open, counted from 0.
#[inline]
pub fn first_too_deep(tokens: &[Token]) -> Option<usize> {
    let mut open: usize = 0;
    for (at, token) in tokens.iter().enumerate() {
        match token.kind {
            Kind::Open => open += 1,
            Kind::Close => open = open.saturating_sub(1),
            Kind::Number | Kind::Name | Kind::Operator(_) | Kind::Comma => (),
        }
        if open > MOST_OPEN {
            return Some(at);
        }
    }
    None
}
