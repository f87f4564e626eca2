// Erased from crates/ratio_expressions/src/lexer/number.rt by rust/erase: not to be edited.
//! How long the number or the name is that a text begins with.

use crate::proved::ratio_expressions::vulgar::vulgar_length;

/// How long the number is that a text begins with, or 0. A slash without spaces may be right before it.
#[inline]
pub(crate) fn number_length(slash: bool, text: &[u8]) -> usize {
    let end = plain_length(slash, text);
    if end == 0 {
        return 0;
    }
    end + percent_length(slash, &text[end..])
}

// The same, without a percent sign.
#[inline]
fn plain_length(slash: bool, text: &[u8]) -> usize {
    let whole = digits_length(text);
    if whole > 0 {
        return whole + tail_length(slash, &text[whole..]);
    }
    let vulgar = vulgar_length(text);
    if vulgar > 0 {
        return vulgar;
    }
    if led_length(b'.', text) > 0 {
        decimal_length(text)
    } else {
        0
    }
}

// How long a percent sign is that belongs to the number before it.
#[inline]
fn percent_length(slash: bool, text: &[u8]) -> usize {
    match text {
        [b'%', rest @ ..] if !(slash || begins_operand(rest)) => 1,
        _ => 0,
    }
}

/// Whether an operand begins: a digit, a point, a name or a parenthesis.
#[inline]
pub(crate) fn begins_operand(text: &[u8]) -> bool {
    match text {
        [first, ..] => {
            first.is_ascii_alphanumeric() || *first == b'_' || *first == b'.' || *first == b'('
        }
        [] => false,
    }
}

/// How long the name is that a text begins with, or 0.
#[inline]
pub(crate) fn name_length(text: &[u8]) -> usize {
    match text {
        [first, ..] if first.is_ascii_alphabetic() || *first == b'_' => name_bytes(text),
        _ => 0,
    }
}

// How many letters, digits and underscores a text begins with.
#[inline]
fn name_bytes(text: &[u8]) -> usize {
    text.iter()
        .take_while(|byte| byte.is_ascii_alphanumeric() || **byte == b'_')
        .count()
}

/// How many digits a text begins with.
#[inline]
pub(crate) fn digits_length(text: &[u8]) -> usize {
    text.iter().take_while(|byte| byte.is_ascii_digit()).count()
}

/// How long this byte and the digits behind it are, or 0 if there is no digit.
#[inline]
pub(crate) fn led_length(byte: u8, text: &[u8]) -> usize {
    match text {
        [first, rest @ ..] if *first == byte => {
            let digits = digits_length(rest);
            if digits > 0 { digits + 1 } else { 0 }
        }
        _ => 0,
    }
}

// How long a sign of an exponent is.
#[inline]
fn sign_length(text: &[u8]) -> usize {
    match text {
        [b'-' | b'+', ..] => 1,
        _ => 0,
    }
}

// How long a sign or none and digits are, or 0 if there is no digit.
#[inline]
fn signed_length(text: &[u8]) -> usize {
    let sign = sign_length(text);
    let digits = digits_length(&text[sign..]);
    if digits > 0 { sign + digits } else { 0 }
}

// How long an exponent is.
#[inline]
fn exponent_length(text: &[u8]) -> usize {
    match text {
        [b'e' | b'E', rest @ ..] => {
            let signed = signed_length(rest);
            if signed > 0 { signed + 1 } else { 0 }
        }
        _ => 0,
    }
}

// How long a point with digits and an exponent are, each if it is there.
#[inline]
fn decimal_length(text: &[u8]) -> usize {
    let point = led_length(b'.', text);
    point + exponent_length(&text[point..])
}

// How long a vulgar fraction is, or a space and a vulgar fraction, or 0.
#[inline]
fn vulgar_tail_length(text: &[u8]) -> usize {
    match text {
        [b' ', rest @ ..] => {
            let long = vulgar_length(rest);
            if long > 0 { long + 1 } else { 0 }
        }
        _ => vulgar_length(text),
    }
}

// How long what makes a whole number a mixed number is.
#[inline]
fn mixed_length(text: &[u8]) -> usize {
    let numer = led_length(b' ', text);
    let denom = led_length(b'/', &text[numer..]);
    if numer > 0 && denom > 0 {
        numer + denom
    } else {
        vulgar_tail_length(text)
    }
}

// How long what makes a whole number a mixed number or a decimal is.
#[inline]
fn tail_length(slash: bool, text: &[u8]) -> usize {
    let mixed = mixed_length(text);
    if mixed > 0 && !(slash || begins_power(&text[mixed..])) {
        mixed
    } else {
        decimal_length(text)
    }
}

// How many blank bytes a text begins with.
#[inline]
fn blanks_length(text: &[u8]) -> usize {
    text.iter()
        .take_while(|byte| **byte == b' ' || **byte == b'\t')
        .count()
}

/// Whether a `^` or a `**` comes first, maybe behind blank bytes.
#[inline]
pub(crate) fn begins_power(text: &[u8]) -> bool {
    match &text[blanks_length(text)..] {
        [b'^', ..] | [b'*', b'*', ..] => true,
        _ => false,
    }
}
