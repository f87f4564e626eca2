//! The calculator: lines on standard input, answers on standard output.
//!
//! `rust/erase` writes `proved/` from the proved sources. Only this file and `host.rs` are written by hand.
mod host;
mod proved;

use std::process::ExitCode;

fn main() -> ExitCode {
    proved::ratio_calc::main()
}
