// Erased from crates/ratio_expressions/src/refusal.rt by rust/erase: not to be edited.
//! Why a text has no value, also in words for a person, and where.

use bakhsney::memory::AllocError;

/// Why a text has no value.
#[derive(Clone, Copy, PartialEq, Debug)]
pub enum Reason {
    /// No expression goes on here: `2 + )`.
    NoExpression,
    /// With the parenthesis here, more than 1,000 are open.
    TooDeep,
    /// The number here is none that is read.
    NotNumeral,
    /// The number here has the denominator 0: `1/0`.
    ZeroDenominator,
    /// The exponent of the number here has more than five digits: `1e100000`.
    NumberTooLarge,
    /// Nothing has the name here.
    UnknownName,
    /// No call has the name here.
    UnknownCall,
    /// The call here takes another number of arguments: `floor(1, 2)`.
    ArgumentCount,
    /// The operator or the call here takes numbers, and an operand or an argument is true or false.
    NotNumber,
    /// The call here takes a bound of 1 or more, and it is below 1: `nearest(1/2, 0)`.
    BoundBelowOne,
    /// The two numbers of the call here are equal, and nothing is between them: `between(1/2, 2/4)`.
    NothingBetween,
    /// The operator here divides by 0: `1 / 0`, `7 % 0` or `0 ^ -1`.
    ZeroDivisor,
    /// The exponent of the power here is no whole number: `2 ^ 0.5`.
    ExponentNotWhole,
    /// The numbers of the power here may have more than a million bits: `2 ^ 1000000000`.
    PowerTooLarge,
    /// The numbers that the operator or the call here takes have more than a million bits together: `2^600000 * 2^600000`.
    TooLarge,
}

impl Reason {
    /// The reason in words, for a person.
    #[inline]
    pub fn text(self) -> &'static str {
        match self {
            Reason::NoExpression => "the expression cannot go on like this",
            Reason::TooDeep => "the parentheses are too deep",
            Reason::NotNumeral => "this is no number",
            Reason::ZeroDenominator => "the denominator is 0",
            Reason::NumberTooLarge => "the exponent has more than five digits",
            Reason::UnknownName => "nothing has this name",
            Reason::UnknownCall => "there is no such call",
            Reason::ArgumentCount => "the call takes another number of arguments",
            Reason::NotNumber => "this takes numbers, and not true or false",
            Reason::BoundBelowOne => "the bound is below 1",
            Reason::NothingBetween => "there is nothing between equal numbers",
            Reason::ZeroDivisor => "this divides by 0",
            Reason::ExponentNotWhole => "the exponent is no whole number",
            Reason::PowerTooLarge => "the power may have more than a million bits",
            Reason::TooLarge => "the numbers have more than a million bits together",
        }
    }
}

/// Why a text has no value, and at which byte. The first byte of a text is at 0.
#[derive(Clone, Copy, PartialEq, Debug)]
pub struct Refusal {
    pub reason: Reason,
    pub place: usize,
}

/// Why a call returns no value.
#[derive(Clone, Copy, PartialEq, Debug)]
pub enum ValueError {
    /// The memory did not suffice.
    Memory,
    /// The text has no value.
    Refused(Refusal),
}

impl From<AllocError> for ValueError {
    #[inline]
    fn from(_e: AllocError) -> ValueError {
        ValueError::Memory
    }
}

/// The refusal for a reason at a place.
#[inline]
pub(crate) fn refused(reason: Reason, place: usize) -> ValueError {
    ValueError::Refused(Refusal { reason, place })
}
