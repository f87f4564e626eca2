// Erased from crates/ratio_expressions/src/replies/reply.rt by rust/erase: not to be edited.
//! `Reply`: what a line is answered.

use bakhsney::memory::{AllocError, Global, Vec};
use crate::proved::ratio_expressions::lexer::is_blank_byte;
use crate::proved::ratio_expressions::line::value_of_line;
use crate::proved::ratio_expressions::names::Names;
use crate::proved::ratio_expressions::refusal::ValueError;
use crate::proved::ratio_expressions::replies::form::Form;
use crate::proved::ratio_expressions::replies::reading::answer_text;
use crate::proved::ratio_expressions::replies::refused::refusal_lines;

// How many bytes a line may have.
const MOST_BYTES: usize = 1_000_000;

/// What a line is answered. No text ends with a line end.
pub enum Reply {
    /// Nothing: the line has only spaces and tabs, or not even these.
    Nothing,
    /// The line's value in the form that was asked for. In `Both` it may show how the line was read.
    Answer(Vec<u8>),
    /// Why the line has no value, in three lines: the line, a caret below the place, and the reason. A line of more than a million bytes is
    /// not read, and the reason is all of the text.
    Refused(Vec<u8>),
}

/// The reply to a line without its line end, with its number in a form. `x = 17/12` in `Mixed` is answered `1 5/12`, and gives the value the
/// name `x`, as `line::value_of_line` does. An error means that an allocation failed. Then each name has the value that it had, or the
/// new one.
#[inline]
pub fn reply_to(
    alloc: Global,
    line: &[u8],
    form: Form,
    names: &mut Names,
) -> Result<Reply, AllocError> {
    if is_blank(line) {
        return Ok(Reply::Nothing);
    }
    if line.len() > MOST_BYTES {
        return too_long(alloc);
    }
    read_reply(alloc, line, form, names)
}

// What a line is answered that is read.
#[inline]
fn read_reply(
    alloc: Global,
    line: &[u8],
    form: Form,
    names: &mut Names,
) -> Result<Reply, AllocError> {
    match value_of_line(alloc, line, names) {
        Ok(value) => {
            let text = answer_text(alloc, line, &value, form)?;
            Ok(Reply::Answer(text))
        }
        Err(ValueError::Refused(refusal)) => {
            let text = refusal_lines(alloc, line, refusal)?;
            Ok(Reply::Refused(text))
        }
        Err(ValueError::Memory) => Err(AllocError),
    }
}

// What a line is answered that is too long to be read.
#[inline]
fn too_long(alloc: Global) -> Result<Reply, AllocError> {
    let text = Vec::from_slice(alloc, b"error: the line has more than a million bytes")?;
    Ok(Reply::Refused(text))
}

// Whether the line has only spaces and tabs, or nothing.
#[inline]
fn is_blank(line: &[u8]) -> bool {
    line.iter().all(|byte| is_blank_byte(*byte))
}
