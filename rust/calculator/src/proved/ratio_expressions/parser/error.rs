// Erased from crates/ratio_expressions/src/parser/error.rt by rust/erase: not to be edited.
//! Why a list of tokens has no tree.

use bakhsney::memory::AllocError;

/// Why a list of tokens has no tree.
#[derive(Clone, Copy, PartialEq, Debug)]
pub enum ParseError {
    /// The memory did not suffice.
    Memory,
    /// Counted from 0, the token where it stops: an expression begins with the tokens before this one, and none with this
    /// one too. Or the number of all tokens: they begin an expression, but its end is missing.
    RefusedToken(usize),
}

impl From<AllocError> for ParseError {
    #[inline]
    fn from(_e: AllocError) -> ParseError {
        ParseError::Memory
    }
}
