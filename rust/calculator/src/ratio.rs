//! The program `ratio`: the value of an expression, or of each line of standard input.
//!
//! `rust/erase` writes `proved/` from the proved sources. Only this file and `host.rs` are written by hand.
mod host;
mod proved;

use std::process::ExitCode;

fn main() -> ExitCode {
    proved::ratio::main()
}
