// Erased from crates/ratio_calc/src/main.rt by rust/erase: not to be edited.
//! The program `ratio_calc`, which `./calc` runs, over `ratio_lines`: the line calculator on standard input and standard output, and its
//! status.

use crate::proved::ratio_lines::calculator::run;
use crate::proved::ratio_lines::counted::Counted;
use crate::proved::ratio_lines::fault::{CalcFault, fault_line};
use std::process::ExitCode;

#[inline]
pub fn main() -> ExitCode {
    let mut reader = Counted::new(crate::host::stdin());
    let mut writer = Counted::new(crate::host::stdout());
    let outcome = run(&mut reader, &mut writer);
    if let Err(fault) = outcome {
        let _ = crate::host::eprintln(fault_line(fault));
    }
    status_of(outcome)
}

// The program's status: 0 if all lines were answered, 1 at a fault.
#[inline]
fn status_of(outcome: Result<(), CalcFault>) -> ExitCode {
    match outcome {
        Ok(()) => ExitCode::SUCCESS,
        Err(_) => ExitCode::FAILURE,
    }
}
