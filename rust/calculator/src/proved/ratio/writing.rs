// Erased from crates/ratio/src/writing.rt by rust/erase: not to be edited.
//! Bytes for an output, written whole.

use crate::proved::ratio::fault::{Fault, fault_of_write};
use crate::proved::ratio_lines::counted::CalcWrite;
use std::io::ErrorKind;

/// Writes all the bytes, and flushes the writer.
#[inline]
pub fn write<W: CalcWrite>(writer: &mut W, bytes: &[u8]) -> Result<(), Fault> {
    let mut at = 0;
    for _turn in 0..u64::MAX {
        if at >= bytes.len() {
            return flush(writer);
        }
        match writer.write_tried(&bytes[at..]) {
            Ok(0) => return Err(Fault::Write),
            Ok(n) => at += n,
            Err(e) => {
                if e.kind() != ErrorKind::Interrupted {
                    return Err(fault_of_write(e.kind()));
                }
            }
        }
    }
    Err(Fault::Write)
}

// Flushes the writer.
#[inline]
fn flush<W: CalcWrite>(writer: &mut W) -> Result<(), Fault> {
    match writer.flush_counted() {
        Ok(()) => Ok(()),
        Err(e) => Err(fault_of_write(e.kind())),
    }
}
