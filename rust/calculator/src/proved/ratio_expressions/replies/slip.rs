// Erased from crates/ratio_expressions/src/replies/slip.rt by rust/erase: not to be edited.
//! Which hint a refused line gets: by what is before the refused place, and by what is at it.

use crate::proved::ratio_expressions::lexer::number::{begins_power, digits_length, led_length, name_length};
use crate::proved::ratio_expressions::lexer::{behind, first_token, is_blank_byte, is_fraction_slash};
use crate::proved::ratio_expressions::refusal::{Reason, Refusal};
use crate::proved::ratio_expressions::replies::hint::Hint;
use crate::proved::ratio_expressions::token::{Kind, Operator};

/// The hint for a refused line, by the reason.
///
/// # Conditions
///
/// The proof requires of the caller:
///
/// - `refusal.place ≤ length line.now`
#[inline]
pub(crate) fn hint_for(line: &[u8], refusal: Refusal) -> Option<Hint> {
    match refusal.reason {
        Reason::NoExpression => hint(line, refusal.place),
        Reason::UnknownName => Some(hint_of_name(name_at(line, refusal.place))),
        Reason::UnknownCall => Some(hint_of_call(name_at(line, refusal.place))),
        _ => None,
    }
}

/// The hint for a line that cannot go on like this at a place.
///
/// # Conditions
///
/// The proof requires of the caller:
///
/// - `place ≤ length line.now`
#[inline]
pub(crate) fn hint(line: &[u8], place: usize) -> Option<Hint> {
    hint_between(trimmed(&line[..place]), &line[place..])
}

// The hint by what is before the place, and by what is at it.
#[inline]
fn hint_between(before: &[u8], rest: &[u8]) -> Option<Hint> {
    if rest.len() == 0 {
        return hint_of_end(before);
    }
    match first_token(false, rest) {
        Some((kind, _)) => hint_of_kind(kind, before, rest),
        None => hint_of_sign(rest),
    }
}

// The hint for a token of this kind, with what is before it and what begins with it.
#[inline]
fn hint_of_kind(kind: Kind, before: &[u8], rest: &[u8]) -> Option<Hint> {
    match kind {
        Kind::Number => Some(hint_of_number(before, rest)),
        Kind::Name => Some(hint_of_word(&rest[..name_length(rest)])),
        Kind::Operator(operator) => Some(hint_of_operator(operator, before)),
        Kind::Open => Some(Hint::Product),
        Kind::Close => Some(Hint::Closing),
        Kind::Comma => hint_of_comma(before),
    }
}

// The hint for the end of the line.
#[inline]
fn hint_of_end(before: &[u8]) -> Option<Hint> {
    if last_byte(before) == b'%' {
        return Some(Hint::Percentage);
    }
    if last_byte(before) == b'=' {
        return Some(Hint::Equals);
    }
    if ends_operand(before) {
        return Some(Hint::Unclosed);
    }
    None
}

// The hint for a number behind an operand.
#[inline]
fn hint_of_number(before: &[u8], rest: &[u8]) -> Hint {
    if ends_over(before) {
        return Hint::BesideSlash;
    }
    if byte_at(rest, 0) == b'.' {
        return Hint::Points;
    }
    if is_part_to_power(behind_digits(rest)) {
        return Hint::MixedPower;
    }
    if is_fraction_slash(behind_digits(rest)) {
        return Hint::MixedSlash;
    }
    Hint::SideBySide
}

// The hint for a word behind an operand.
#[inline]
fn hint_of_word(word: &[u8]) -> Hint {
    if is_cross(word) {
        return Hint::Times;
    }
    if word == b"mod".as_slice() {
        return Hint::Remainder;
    }
    if word == b"div".as_slice() {
        return Hint::WholeQuotient;
    }
    if word == b"times".as_slice() {
        return Hint::Times;
    }
    if word == b"of".as_slice() {
        return Hint::Share;
    }
    if word == b"and".as_slice() {
        return Hint::Joined;
    }
    match word {
        [b'_', ..] => Hint::Underscore,
        _ => Hint::Unit,
    }
}

// The hint for an operator.
#[inline]
fn hint_of_operator(operator: Operator, before: &[u8]) -> Hint {
    if last_byte(before) == b'%' {
        return Hint::Percentage;
    }
    if before.len() == 0 && !is_equal(operator) {
        return Hint::GoingOn;
    }
    hint_of_compared(operator, before)
}

// Whether an operator is `=`.
#[inline]
fn is_equal(operator: Operator) -> bool {
    match operator {
        Operator::Equal => true,
        _ => false,
    }
}

// The hint for an operator that no operand is before, or that compares once more.
#[inline]
fn hint_of_compared(operator: Operator, before: &[u8]) -> Hint {
    match operator {
        Operator::Equal => hint_of_equal(before),
        Operator::Less
        | Operator::AtMost
        | Operator::NotEqual
        | Operator::AtLeast
        | Operator::Greater => hint_of_comparison(before),
        Operator::Divide(_) => hint_of_slash(before),
        Operator::Remainder(_) if ends_operand(before) => Hint::Percentage,
        _ => Hint::OneOperator,
    }
}

// The hint for an equals sign.
#[inline]
fn hint_of_equal(before: &[u8]) -> Hint {
    if before.len() == 0 {
        return Hint::Equals;
    }
    if last_byte(before) == b'=' {
        return Hint::Same;
    }
    if last_byte(before) == b'<' || last_byte(before) == b'>' {
        return Hint::Turned;
    }
    if ends_operand(before) {
        Hint::TwoNames
    } else {
        Hint::Increase
    }
}

// The hint for another comparison.
#[inline]
fn hint_of_comparison(before: &[u8]) -> Hint {
    if last_byte(before) == b'=' || last_byte(before) == b'<' {
        return Hint::Turned;
    }
    if ends_operand(before) {
        Hint::Chain
    } else {
        Hint::OneOperator
    }
}

// The hint for a slash.
#[inline]
fn hint_of_slash(before: &[u8]) -> Hint {
    if last_byte(before) == b'/' {
        Hint::WholeQuotient
    } else {
        Hint::OneOperator
    }
}

// The hint for a comma.
#[inline]
fn hint_of_comma(before: &[u8]) -> Option<Hint> {
    if ends_operand(before) {
        Some(Hint::Comma)
    } else {
        None
    }
}

// The hint for what begins no token.
#[inline]
fn hint_of_sign(rest: &[u8]) -> Option<Hint> {
    match rest {
        [b'.', b'.', ..] => Some(Hint::Repeating),
        [b'.', ..] => Some(Hint::LastPoint),
        [b':', b'=', ..] => Some(Hint::Assigned),
        _ => hint_of_character(rest),
    }
}

// The hint for a sign beyond ASCII, in UTF-8, or for a byte.
#[inline]
fn hint_of_character(text: &[u8]) -> Option<Hint> {
    let first = byte_at(text, 0);
    if first == 0xC2 {
        return hint_of_two(byte_at(text, 1));
    }
    if first == 0xE2 {
        return hint_of_three(byte_at(text, 1), byte_at(text, 2));
    }
    if first == 0xCF && byte_at(text, 1) == 0x80 {
        return Some(Hint::Pi);
    }
    hint_of_byte(first)
}

// The hint for a sign of two bytes, by the second one behind 0xC2.
#[inline]
fn hint_of_two(second: u8) -> Option<Hint> {
    match second {
        0xB2 | 0xB3 => Some(Hint::Power),
        0xA0 => Some(Hint::PlainSpace),
        0xA2 | 0xA3 | 0xA5 | 0xB0 => Some(Hint::Currency),
        _ => None,
    }
}

// The hint for a sign of three bytes, by the last two behind 0xE2.
#[inline]
fn hint_of_three(second: u8, third: u8) -> Option<Hint> {
    match (second, third) {
        (0x80, mark) => hint_of_mark(mark),
        (0x88, 0x9A) => Some(Hint::Root),
        (0x82, 0xAC) => Some(Hint::Currency),
        _ => None,
    }
}

// The hint for a sign of three bytes, by the last one behind 0xE2 and 0x80.
#[inline]
fn hint_of_mark(third: u8) -> Option<Hint> {
    match third {
        0xA6 => Some(Hint::Repeating),
        0xAF => Some(Hint::PlainSpace),
        0x99 | 0x9D | 0xB2 | 0xB3 => Some(Hint::Currency),
        _ => None,
    }
}

// The hint for a byte that begins no token.
#[inline]
fn hint_of_byte(byte: u8) -> Option<Hint> {
    match byte {
        b'!' => Some(Hint::Factorial),
        b'"' | b'$' | b'\'' => Some(Hint::Currency),
        b'#' => Some(Hint::Note),
        b'&' | b'|' => Some(Hint::Chain),
        b':' => Some(Hint::Proportion),
        b';' => Some(Hint::Lines),
        b'?' => Some(Hint::Equals),
        b'@' => Some(Hint::Times),
        b'[' | b']' | b'{' | b'}' => Some(Hint::Bracket),
        _ => None,
    }
}

// The hint for a name that nothing has.
#[inline]
fn hint_of_name(word: &[u8]) -> Hint {
    if word == b"pi".as_slice() || word == b"Pi".as_slice() || word == b"PI".as_slice() {
        Hint::Pi
    } else {
        Hint::NameFirst
    }
}

// The hint for a call that there is not.
#[inline]
fn hint_of_call(word: &[u8]) -> Hint {
    if word == b"sqrt".as_slice() {
        return Hint::Root;
    }
    if word == b"pow".as_slice() {
        return Hint::Power;
    }
    if word == b"mod".as_slice() {
        return Hint::Remainder;
    }
    if word == b"sum".as_slice() {
        return Hint::Sum;
    }
    if word == b"factorial".as_slice() {
        return Hint::Factorial;
    }
    if word.len() == 1 {
        Hint::NameProduct
    } else {
        Hint::Calls
    }
}

// The name at a place of a line.
#[inline]
fn name_at(line: &[u8], place: usize) -> &[u8] {
    let rest = &line[place..];
    &rest[..name_length(rest)]
}

// A text without the blank bytes at its end.
#[inline]
fn trimmed(text: &[u8]) -> &[u8] {
    &text[..text.len() - last_blanks(text)]
}

// How many blank bytes a text ends with.
#[inline]
fn last_blanks(text: &[u8]) -> usize {
    text.iter()
        .rev()
        .take_while(|byte| is_blank_byte(**byte))
        .count()
}

// How many digits a text ends with.
#[inline]
fn digits_at_end(text: &[u8]) -> usize {
    text.iter()
        .rev()
        .take_while(|byte| byte.is_ascii_digit())
        .count()
}

// The last byte of a text, or 0.
#[inline]
fn last_byte(text: &[u8]) -> u8 {
    let long = text.len();
    if long > 0 { text[long - 1] } else { 0 }
}

// Whether a text ends as an operand does: with a letter, a digit, an underscore or a parenthesis.
#[inline]
fn ends_operand(text: &[u8]) -> bool {
    let last = last_byte(text);
    last.is_ascii_alphanumeric() || last == b'_' || last == b')'
}

// Whether a text ends with a slash and digits.
#[inline]
fn ends_over(text: &[u8]) -> bool {
    let digits = digits_at_end(text);
    digits > 0 && behind(b'/', text, text.len() - digits)
}

// The byte at a place of a text, or 0 if none is there.
#[inline]
fn byte_at(text: &[u8], at: usize) -> u8 {
    if at < text.len() { text[at] } else { 0 }
}

// What is behind the digits that a text begins with.
#[inline]
fn behind_digits(text: &[u8]) -> &[u8] {
    &text[digits_length(text)..]
}

// Whether a text is a slash and digits and then a power.
#[inline]
fn is_part_to_power(text: &[u8]) -> bool {
    let part = led_length(b'/', text);
    part > 0 && begins_power(&text[part..])
}

// Whether a word is an x as a sign of a product: alone, or with digits.
#[inline]
fn is_cross(word: &[u8]) -> bool {
    match word {
        [b'x' | b'X', rest @ ..] => digits_length(rest) == rest.len(),
        _ => false,
    }
}
