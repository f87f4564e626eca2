// Erased from crates/ratio_lines/src/line.rt by rust/erase: not to be edited.
//! `Line`: the line that is being read, as far as it is kept, and the answer to the line that ends first in a piece of the
//! input.

use crate::proved::ratio_lines::answer::{AnswerText, TOO_LONG, answer, answer_two};
use crate::proved::ratio_lines::parts::{LONGEST_LINE, cut, plain_line};
use arrayvec::ArrayVec;
use either::Either;

/// The bytes of a line so far, or that they are more than a line may have.
pub struct Line {
    bytes: ArrayVec<u8, LONGEST_LINE>,
    is_too_long: bool,
}

impl Line {
    /// A line without a byte.
    #[inline]
    pub fn new() -> Line {
        Line {
            bytes: ArrayVec::new(),
            is_too_long: false,
        }
    }

    /// Adds more bytes at the end. A line that has become too long stays so.
    #[inline]
    pub fn extend(&mut self, more: &[u8]) {
        match self.bytes.try_extend_from_slice(more) {
            Ok(()) => {}
            Err(_) => self.is_too_long = true,
        }
    }

    /// Begins a new line.
    #[inline]
    pub fn clear(&mut self) {
        self.bytes.clear();
        self.is_too_long = false;
    }

    /// Whether no byte has come yet.
    #[inline]
    pub fn is_empty(&self) -> bool {
        self.bytes.is_empty() && !self.is_too_long
    }

    /// The answer to this line, without a line end.
    #[inline]
    pub fn answer(&self) -> AnswerText {
        if self.is_too_long {
            Either::Left(TOO_LONG)
        } else {
            answer(self.bytes.as_slice())
        }
    }
}

/// The answer to the line that the bytes begin with, and the bytes after
/// its line end. `None` if there is no line end.
#[inline]
fn first_answer(bytes: &[u8]) -> Option<(AnswerText, &[u8])> {
    if let Some(line) = plain_line(bytes) {
        return Some((answer_two(line.left, line.operator, line.right), line.after));
    }
    let (line, after) = cut(bytes, b'\n')?;
    Some((answer(line), after))
}

/// The answer to the line that ends first in the bytes, and the bytes after its line end. `None` if
/// there is no line end. A line that also begins in these bytes is answered without a copy.
#[inline]
pub(crate) fn next_answer<'a>(line: &mut Line, bytes: &'a [u8]) -> Option<(AnswerText, &'a [u8])> {
    if line.is_empty() {
        return first_answer(bytes);
    }
    let (ended, after) = cut(bytes, b'\n')?;
    line.extend(ended);
    let answer = line.answer();
    line.clear();
    Some((answer, after))
}
