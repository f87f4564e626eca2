// Erased from crates/ratio_c/src/code.rt by rust/erase: not to be edited.
//! The codes of answers.

/// The answer has its numbers.
pub const ANSWERED: u32 = 0;

/// The result does not fit in the type, or the library's call
/// does not form it.
pub const NOT_HELD: u32 = 1;

/// The divisor is 0, or 0 has an exponent below 0.
pub const DIVISION_BY_ZERO: u32 = 2;

/// A denominator is 0 or below it, and the call requires positive ones.
pub const DENOMINATOR_NOT_POSITIVE: u32 = 3;

/// A denominator is 0.
pub const ZERO_DENOMINATOR: u32 = 4;

/// A text is no fraction, or its numbers or its lowest terms do not fit in 128 bits.
pub const PARSE_ERROR: u32 = 5;

/// A span does not lie in the texts.
pub const NO_TEXT: u32 = 6;

/// The bound of a denominator is 0 or below it, so no fraction has such a denominator.
pub const BOUND_NOT_POSITIVE: u32 = 7;

/// An empty slot of a total has a numerator that is not 0.
pub const NO_TOTAL: u32 = 8;

/// The call has no such rule, number of parts or of places, scale or flags.
pub const BAD_OPTION: u32 = 9;

/// A total has no slot for another denominator, or the room of a read or of a product of many is too short.
pub const MORE_ROOM: u32 = 10;

/// The common denominator of a total is not below 2^(2^20).
pub const TOO_LONG: u32 = 11;

/// A share or a weight is below 0.
pub const BELOW_ZERO: u32 = 12;

/// The shares do not add up to 1.
pub const NOT_ONE: u32 = 13;

/// The weights add up to 0.
pub const ALL_ZERO: u32 = 14;

/// There are not as many parts as shares or weights.
pub const UNLIKE_LENGTHS: u32 = 15;

/// The lower bound is included.
pub const LOW_INCLUDED: u32 = 1;

/// The upper bound is included.
pub const HIGH_INCLUDED: u32 = 2;

/// There is no lower bound.
pub const LOW_OPEN: u32 = 4;

/// There is no upper bound.
pub const HIGH_OPEN: u32 = 8;

/// The rule that rounds to the nearer one, and a half away from zero.
pub const RULE_HALF_AWAY: u32 = 0;

/// To the nearer one, and a half to the even one.
pub const RULE_HALF_EVEN: u32 = 1;

/// Towards zero.
pub const RULE_DOWN: u32 = 2;

/// Away from zero.
pub const RULE_UP: u32 = 3;

/// To the one below.
pub const RULE_FLOOR: u32 = 4;

/// To the one above.
pub const RULE_CEIL: u32 = 5;
