// Erased from crates/ratio_lines/src/calculator.rt by rust/erase: not to be edited.
//! The calculator, from the bytes read to the bytes written: `run` and its steps, each for one piece of the input.

use crate::proved::ratio_lines::counted::{CalcRead, CalcWrite};
use crate::proved::ratio_lines::fault::CalcFault;
use crate::proved::ratio_lines::gathered::{Gathered, answer_piece, put_answer};
use crate::proved::ratio_lines::line::Line;

/// Reads a piece, and returns the number of its bytes: 0 at the end.
#[inline]
fn read_piece<R: CalcRead<W>, W: CalcWrite>(
    reader: &mut R,
    writer: &W,
    buffer: &mut [u8; 512],
) -> Result<usize, CalcFault> {
    match reader.read_counted(buffer, writer) {
        Ok(count) => Ok(count),
        Err(_) => Err(CalcFault::Read),
    }
}

/// Answers each whole line, and returns the begun line. The answers to a piece
/// are written before the next piece is read.
#[inline]
fn answer_whole_lines<R: CalcRead<W>, W: CalcWrite>(
    reader: &mut R,
    writer: &mut W,
) -> Result<Line, CalcFault> {
    let mut line = Line::new();
    let mut gathered = Gathered::new();
    let mut buffer = [0u8; 512];
    for _turn in 0..u64::MAX {
        match read_piece(reader, &*writer, &mut buffer) {
            Ok(0) => return Ok(line),
            Ok(count) => take_piece(&mut line, &mut gathered, writer, &buffer[..count])?,
            Err(fault) => return Err(fault),
        }
    }
    Err(CalcFault::Endless)
}

/// Answers each line that ends in the piece, and writes the answers.
#[inline]
fn take_piece<W: CalcWrite>(
    line: &mut Line,
    gathered: &mut Gathered,
    writer: &mut W,
    piece: &[u8],
) -> Result<(), CalcFault> {
    answer_piece(line, gathered, writer, piece)?;
    gathered.write_out(writer)
}

/// Answers the begun line, if it has a byte.
#[inline]
fn answer_last<W: CalcWrite>(line: &Line, writer: &mut W) -> Result<(), CalcFault> {
    if line.is_empty() {
        return Ok(());
    }
    let mut last = Gathered::new();
    put_answer(&mut last, writer, &line.answer())?;
    last.write_out(writer)
}

/// Flushes the writer.
#[inline]
fn flush<W: CalcWrite>(writer: &mut W) -> Result<(), CalcFault> {
    match writer.flush_counted() {
        Ok(()) => Ok(()),
        Err(_) => Err(CalcFault::Write),
    }
}

/// Reads the whole input, answers each of its lines, and then flushes the writer. It takes no
/// memory. It stops at the first call that fails.
#[inline]
pub fn run<R: CalcRead<W>, W: CalcWrite>(reader: &mut R, writer: &mut W) -> Result<(), CalcFault> {
    let line = answer_whole_lines(reader, writer)?;
    answer_last(&line, writer)?;
    flush(writer)
}
