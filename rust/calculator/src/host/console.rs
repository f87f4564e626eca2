//! What the program `ratio` gets from its host.
use super::stdin;
use crate::proved::ratio::fault::Fault;
use crate::proved::ratio_lines::counted::CalcWrite;
use bakhsney::memory::{Global, String, Vec};
use memchr::memchr;
use std::env;
pub use std::io::stderr;
use std::io::{BufRead, ErrorKind, StdinLock};

/// The arguments behind the program's name.
pub fn arguments() -> Result<Vec<String>, Fault> {
    let mut words = Vec::new(Global);
    for word in env::args_os().skip(1) {
        let word = word.to_str().ok_or(Fault::Arguments)?;
        words.push(String::from_str(Global, word)?)?;
    }
    Ok(words)
}

/// Whether a person types the input and sees the output. std has a call for this that is newer than the crate's Rust.
pub fn is_terminal() -> bool {
    #[cfg(unix)]
    {
        extern "C" {
            fn isatty(file: i32) -> i32;
        }
        // SAFETY: C's isatty takes any number.
        unsafe { isatty(0) == 1 && isatty(1) == 1 }
    }
    #[cfg(not(unix))]
    false
}

/// Standard input from where it is.
pub fn input() -> Result<Lines<StdinLock<'static>>, Fault> {
    Ok(Lines { device: stdin() })
}

/// A reader of lines, beside the writer of their answers.
pub trait LineRead<W: CalcWrite> {
    /// Reads the next line, with its line end if it has one, and says whether there is one.
    fn read_line(&mut self, line: &mut Vec<u8>, writer: &W) -> Result<bool, Fault>;
}

/// A reader whose lines are read.
pub struct Lines<D> {
    device: D,
}

impl<D: BufRead, W: CalcWrite> LineRead<W> for Lines<D> {
    fn read_line(&mut self, line: &mut Vec<u8>, _writer: &W) -> Result<bool, Fault> {
        line.clear();
        loop {
            let piece = match self.device.fill_buf() {
                Ok(piece) => piece,
                Err(e) if e.kind() == ErrorKind::Interrupted => continue,
                Err(_) => return Err(Fault::Read),
            };
            let end = memchr(b'\n', piece).map_or(piece.len(), |at| at + 1);
            let is_whole = piece.is_empty() || piece[end - 1] == b'\n';
            line.extend_from_slice(&piece[..end])?;
            self.device.consume(end);
            if is_whole {
                return Ok(!line.is_empty());
            }
        }
    }
}
