//! What the proved programs get from their host.
// The program `ratio` is for 64 bits: the page has no terminal.
#[cfg(target_pointer_width = "64")]
mod console;

#[cfg(target_pointer_width = "64")]
pub use console::{arguments, input, is_terminal, stderr, LineRead};
use std::io::{self, StdinLock, StdoutLock, Write};

pub fn stdin() -> StdinLock<'static> {
    io::stdin().lock()
}

/// Standard output. It keeps the bytes after the last line end until the next line end or flush.
pub fn stdout() -> StdoutLock<'static> {
    io::stdout().lock()
}

pub fn eprintln(line: &str) -> io::Result<()> {
    writeln!(io::stderr(), "{line}")
}
