// Erased from crates/ratio_core/src/parse_error.rt by rust/erase: not to be edited.
//! Why a text is refused as a fraction: `ParseRatioError`, its kinds, and what it prints.

#[cfg(feature = "std")]
use std::error::Error;
use core::fmt;

/// What is wrong with a text.
#[derive(Clone, Copy, PartialEq, Debug)]
pub enum RatioErrorKind {
    /// The text is not a fraction of numbers that fit the type, or its lowest
    /// terms do not fit. Over `i8`: `x`, `128` and `1/-128`.
    ParseError = 1,
    /// The text is a fraction of numbers that fit the type, and its denominator is 0: `1/0`.
    ZeroDenominator = 2,
}

/// The refusal of a text. Contracts see its kind.
#[derive(Clone, Copy, PartialEq, Debug)]
pub struct ParseRatioError {
    kind: RatioErrorKind,
}

impl ParseRatioError {
    /// A refusal of this kind.
    #[inline]
    pub fn new(kind: RatioErrorKind) -> ParseRatioError {
        ParseRatioError { kind }
    }

    /// What is wrong with the text.
    #[inline]
    pub fn kind(&self) -> RatioErrorKind {
        self.kind
    }
}

impl fmt::Display for ParseRatioError {
    #[inline]
    fn fmt(&self, f: &mut fmt::Formatter<'_>) -> fmt::Result {
        match self.kind {
            RatioErrorKind::ParseError => f.pad("failed to parse integer"),
            RatioErrorKind::ZeroDenominator => f.pad("zero value denominator"),
        }
    }
}

#[cfg(feature = "std")]
impl Error for ParseRatioError {}
