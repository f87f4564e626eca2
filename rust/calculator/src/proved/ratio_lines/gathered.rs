// Erased from crates/ratio_lines/src/gathered.rt by rust/erase: not to be edited.
//! `Gathered`: bytes that wait to be written, and the answers to a piece of the input put there, so that one call writes
//! many of them.

use crate::proved::ratio_lines::answer::AnswerText;
use crate::proved::ratio_lines::counted::CalcWrite;
use crate::proved::ratio_lines::fault::CalcFault;
use crate::proved::ratio_lines::line::{Line, next_answer};
use arrayvec::ArrayVec;
use either::Either;

/// Bytes that wait to be written, in a fixed array.
pub struct Gathered {
    bytes: ArrayVec<u8, 1024>,
}

impl Gathered {
    /// No bytes.
    #[inline]
    pub fn new() -> Gathered {
        Gathered {
            bytes: ArrayVec::new(),
        }
    }

    /// Adds bytes at the end. If there is room for them, nothing is written. Otherwise those that wait
    /// are written first. Bytes that are longer than all the room are then written at once.
    #[inline]
    pub fn put<W: CalcWrite>(&mut self, writer: &mut W, bytes: &[u8]) -> Result<(), CalcFault> {
        match self.bytes.try_extend_from_slice(bytes) {
            Ok(()) => Ok(()),
            Err(_) => self.put_after(writer, bytes),
        }
    }

    // Writes those that wait. Then adds the bytes, or writes them too.
    #[inline]
    fn put_after<W: CalcWrite>(&mut self, writer: &mut W, bytes: &[u8]) -> Result<(), CalcFault> {
        self.write_out(writer)?;
        if let Ok(()) = self.bytes.try_extend_from_slice(bytes) {
            return Ok(());
        }
        write_bytes(writer, bytes)
    }

    /// Writes the bytes that wait.
    #[inline]
    pub fn write_out<W: CalcWrite>(&mut self, writer: &mut W) -> Result<(), CalcFault> {
        write_bytes(writer, self.bytes.as_slice())?;
        self.bytes.clear();
        Ok(())
    }
}

/// Writes all the bytes.
#[inline]
fn write_bytes<W: CalcWrite>(writer: &mut W, bytes: &[u8]) -> Result<(), CalcFault> {
    let mut at = 0;
    while at < bytes.len() {
        match writer.write_counted(&bytes[at..]) {
            Ok(0) => return Err(CalcFault::Write),
            Ok(n) => at += n,
            Err(_) => return Err(CalcFault::Write),
        }
    }
    Ok(())
}

/// Gathers an answer without its line end.
#[inline]
fn put_text<W: CalcWrite>(
    gathered: &mut Gathered,
    writer: &mut W,
    answer: &AnswerText,
) -> Result<(), CalcFault> {
    match answer {
        Either::Left(text) => gathered.put(writer, text.as_bytes()),
        Either::Right(number) => {
            let text = number.base_ten_text();
            gathered.put(writer, text.as_str().as_bytes())
        }
    }
}

/// Gathers an answer and its line end.
#[inline]
pub fn put_answer<W: CalcWrite>(
    gathered: &mut Gathered,
    writer: &mut W,
    answer: &AnswerText,
) -> Result<(), CalcFault> {
    put_text(gathered, writer, answer)?;
    gathered.put(writer, b"\n")
}

/// Answers each line that ends in the piece, and keeps the bytes after the last line end.
#[inline]
pub fn answer_piece<W: CalcWrite>(
    line: &mut Line,
    gathered: &mut Gathered,
    writer: &mut W,
    piece: &[u8],
) -> Result<(), CalcFault> {
    let mut rest = piece;
    while let Some((answer, after)) = next_answer(line, rest) {
        put_answer(gathered, writer, &answer)?;
        rest = after;
    }
    line.extend(rest);
    Ok(())
}
