// Erased from crates/ratio_lines/src/fault.rt by rust/erase: not to be edited.
//! Why a run stopped, and what the program prints then.

/// Why a run stopped.
#[derive(Clone, Copy, PartialEq, Debug)]
pub enum CalcFault {
    /// A call of the reader failed.
    Read = 1,
    /// A call of the writer failed.
    Write = 2,
    /// At least 2^64-1 bytes were read, and the reader has not said that it has ended.
    Endless = 3,
}

/// What the program prints at a fault.
#[inline]
pub fn fault_line(fault: CalcFault) -> &'static str {
    match fault {
        CalcFault::Read => "ratio_calc: read failed",
        CalcFault::Write => "ratio_calc: write failed",
        CalcFault::Endless => "ratio_calc: input too long",
    }
}
