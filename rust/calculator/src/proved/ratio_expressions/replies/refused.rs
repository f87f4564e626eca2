// Erased from crates/ratio_expressions/src/replies/refused.rt by rust/erase: not to be edited.
//! The text of a refusal: the line, a caret and the reason.

use bakhsney::memory::{AllocError, Global, Vec};
use crate::proved::ratio_expressions::expression::column;
use crate::proved::ratio_expressions::refusal::{Reason, Refusal};
use crate::proved::ratio_expressions::replies::hint::put_advice;
use crate::proved::ratio_expressions::replies::slip::hint_for;

/// Three lines without the last line end: the line, a caret below the place, and the reason with the column. Where a hint is known, it is at the
/// end: `; type 2*(3+4) for 2(3+4)`. A tab of the line is shown as a space, and another control byte as `?`. An error means that an
/// allocation failed.
///
/// # Conditions
///
/// The proof requires of the caller:
///
/// - `refusal.place ≤ length line.now`
#[inline]
pub(crate) fn refusal_lines(
    alloc: Global,
    line: &[u8],
    refusal: Refusal,
) -> Result<Vec<u8>, AllocError> {
    let mut text = reason_lines(alloc, line, refusal)?;
    put_advice(&mut text, hint_for(line, refusal))?;
    Ok(text)
}

// The three lines without a hint.
#[inline]
fn reason_lines(alloc: Global, line: &[u8], refusal: Refusal) -> Result<Vec<u8>, AllocError> {
    let place = column(line, refusal.place);
    let mut indent = Vec::new(alloc);
    indent.resize(place - 1, b' ')?;
    let mut number = itoa::Buffer::new();
    let mut text = shown_line(alloc, line)?;
    text.push(b'\n')?;
    text.extend_from_slice(&indent)?;
    text.push(b'^')?;
    text.push(b'\n')?;
    text.extend_from_slice(b"error: ")?;
    text.extend_from_slice(why_refused(line, refusal).as_bytes())?;
    text.extend_from_slice(b", at column ")?;
    text.extend_from_slice(number.format(place).as_bytes())?;
    Ok(text)
}

// The reason in words. Where the line ends and its expression has to go on, it ends too soon.
#[inline]
fn why_refused(line: &[u8], refusal: Refusal) -> &'static str {
    match refusal.reason {
        Reason::NoExpression if refusal.place == line.len() => "the expression ends too soon",
        reason => reason.text(),
    }
}

// The line as it is shown.
#[inline]
fn shown_line(alloc: Global, line: &[u8]) -> Result<Vec<u8>, AllocError> {
    let mut text = Vec::new(alloc);
    for byte in line {
        text.push(shown(*byte))?;
    }
    Ok(text)
}

// A byte as it is shown: a space in place of a tab, and a question mark in place of another control byte.
#[inline]
fn shown(byte: u8) -> u8 {
    match byte {
        b'\t' => b' ',
        0..=31 | 127 => b'?',
        _ => byte,
    }
}
