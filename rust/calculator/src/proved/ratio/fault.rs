// Erased from crates/ratio/src/fault.rt by rust/erase: not to be edited.
//! Why the program stops before its end, and its message.

use bakhsney::memory::{AllocError, String};
use crate::proved::ratio::writing::write;
use crate::proved::ratio_lines::counted::CalcWrite;

use std::io::ErrorKind;

/// Why the program stops before its end.
pub enum Fault {
    /// An argument is not in UTF-8.
    Arguments,
    /// No option has this name.
    UnknownOption(String),
    /// There is no number from 0 to 1,000,000 behind `--decimal`.
    NoPlaces,
    /// The memory did not suffice.
    Memory,
    /// The input could not be read.
    Read,
    /// An answer could not be written.
    Write,
    /// Nobody reads the answers any more.
    Unread,
    /// 2^64-1 lines were answered, and the input has not ended.
    Endless,
}

impl From<AllocError> for Fault {
    #[inline]
    fn from(_e: AllocError) -> Fault {
        Fault::Memory
    }
}

/// The fault of a write that failed with an error of this kind. A broken pipe is no news: its reader has seen enough.
#[inline]
pub fn fault_of_write(kind: ErrorKind) -> Fault {
    if kind == ErrorKind::BrokenPipe {
        Fault::Unread
    } else {
        Fault::Write
    }
}

/// Writes the message of a fault, as on standard error.
#[inline]
pub fn report<W: CalcWrite>(errors: &mut W, fault: &Fault) -> Result<(), Fault> {
    let (text, name, more) = message(fault);
    write(errors, text.as_bytes())?;
    write(errors, name.as_bytes())?;
    write(errors, more.as_bytes())
}

// The message of a fault, in three parts.
#[inline]
fn message(fault: &Fault) -> (&str, &str, &str) {
    match fault {
        Fault::Arguments => ("ratio: an argument is not UTF-8\n", "", ""),
        Fault::UnknownOption(name) => (
            "ratio: unknown option ",
            name.as_str(),
            ": see ratio --help\n",
        ),
        Fault::NoPlaces => (
            "ratio: --decimal wants a number of places, from 0 to 1000000\n",
            "",
            "",
        ),
        Fault::Memory => ("ratio: out of memory\n", "", ""),
        Fault::Read => ("ratio: read failed\n", "", ""),
        Fault::Write => ("ratio: write failed\n", "", ""),
        Fault::Unread => ("", "", ""),
        Fault::Endless => ("ratio: input too long\n", "", ""),
    }
}
