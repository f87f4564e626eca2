// Erased from crates/ratio_expressions/src/lexer/symbol.rt by rust/erase: not to be edited.
//! The operator, the parenthesis or the comma that a text begins with.

use crate::proved::ratio_expressions::token::{Kind, Operator, Spacing};

/// The operator, the parenthesis or the comma that a text begins with, and its length. The signs beyond ASCII are in UTF-8: `− – ≠ ≤ ≥ × · ∙ ⋅ ÷ ⁄`.
/// `**` is `^`. A division and a remainder are set as without spaces.
#[inline]
pub(crate) fn symbol_at(text: &[u8]) -> Option<(Kind, usize)> {
    match text {
        [0xE2, 0x88, 0x92, ..] => Some((Kind::Operator(Operator::Subtract), 3)),
        [0xE2, 0x80, 0x93, ..] => Some((Kind::Operator(Operator::Subtract), 3)),
        [0xE2, 0x88, 0x99, ..] => Some((Kind::Operator(Operator::Multiply), 3)),
        [0xE2, 0x8B, 0x85, ..] => Some((Kind::Operator(Operator::Multiply), 3)),
        [0xE2, 0x81, 0x84, ..] => Some((Kind::Operator(Operator::Divide(Spacing::Tight)), 3)),
        [0xE2, 0x89, 0xA0, ..] => Some((Kind::Operator(Operator::NotEqual), 3)),
        [0xE2, 0x89, 0xA4, ..] => Some((Kind::Operator(Operator::AtMost), 3)),
        [0xE2, 0x89, 0xA5, ..] => Some((Kind::Operator(Operator::AtLeast), 3)),
        [b'<', b'=', ..] => Some((Kind::Operator(Operator::AtMost), 2)),
        [b'>', b'=', ..] => Some((Kind::Operator(Operator::AtLeast), 2)),
        [b'!', b'=', ..] => Some((Kind::Operator(Operator::NotEqual), 2)),
        [b'*', b'*', ..] => Some((Kind::Operator(Operator::Power), 2)),
        [0xC3, 0x97, ..] => Some((Kind::Operator(Operator::Multiply), 2)),
        [0xC2, 0xB7, ..] => Some((Kind::Operator(Operator::Multiply), 2)),
        [0xC3, 0xB7, ..] => Some((Kind::Operator(Operator::Divide(Spacing::Half)), 2)),
        [b'+', ..] => Some((Kind::Operator(Operator::Add), 1)),
        [b'-', ..] => Some((Kind::Operator(Operator::Subtract), 1)),
        [b'*', ..] => Some((Kind::Operator(Operator::Multiply), 1)),
        [b'/', ..] => Some((Kind::Operator(Operator::Divide(Spacing::Tight)), 1)),
        [b'%', ..] => Some((Kind::Operator(Operator::Remainder(Spacing::Half)), 1)),
        [b'^', ..] => Some((Kind::Operator(Operator::Power), 1)),
        [b'<', ..] => Some((Kind::Operator(Operator::Less), 1)),
        [b'=', ..] => Some((Kind::Operator(Operator::Equal), 1)),
        [b'>', ..] => Some((Kind::Operator(Operator::Greater), 1)),
        [b'(', ..] => Some((Kind::Open, 1)),
        [b')', ..] => Some((Kind::Close, 1)),
        [b',', ..] => Some((Kind::Comma, 1)),
        _ => None,
    }
}
