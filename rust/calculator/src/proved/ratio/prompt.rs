// Erased from crates/ratio/src/prompt.rt by rust/erase: not to be edited.
//! What a person reads at a prompt, and the words that are commands there.

use crate::proved::ratio::setting::Setting;

/// What is written at a prompt before the first line is read.
pub const START: &str = "ratio 0.1.0: exact fractions. `help` shows examples, `quit` ends.\n> ";

/// What `help` and `?` print at a prompt.
pub const TIPS: &str = "\
1/3 + 0.25        a value, exact: 7/12. Also 2^-3, 1 1/2, 12.5%, 1e3
x = 3/7           gives it a name. ans is the value before
1/2 / 1/3         3/2: right of a slash with spaces, 1/3 is one number
0.1 + 0.2 = 0.3   true. Also <, <=, !=, >= and >
max(1, 2)         also min, gcd, lcm, abs, floor, ceil, round, trunc
help, ?           this text
quit, exit        end, as Ctrl-D does. Ctrl-C stops at once
";

/// Whether a line ends the lines: `quit` or `exit` at a prompt.
#[inline]
pub fn ends_lines(setting: Setting, line: &[u8]) -> bool {
    match setting {
        Setting::Prompt => line == b"quit".as_slice() || line == b"exit".as_slice(),
        Setting::Pipe | Setting::Paired => false,
    }
}

/// Whether a line asks for help: `help` or `?` at a prompt.
#[inline]
pub fn asks_help(setting: Setting, line: &[u8]) -> bool {
    match setting {
        Setting::Prompt => line == b"help".as_slice() || line == b"?".as_slice(),
        Setting::Pipe | Setting::Paired => false,
    }
}

/// What is written before the first line is read.
#[inline]
pub fn start(setting: Setting) -> &'static [u8] {
    match setting {
        Setting::Prompt => START.as_bytes(),
        Setting::Pipe | Setting::Paired => b"",
    }
}

/// What is written behind the answer to a line.
#[inline]
pub fn prompt(setting: Setting) -> &'static [u8] {
    match setting {
        Setting::Prompt => b"> ",
        Setting::Pipe | Setting::Paired => b"",
    }
}

/// What is written once no line is left.
#[inline]
pub fn end(setting: Setting) -> &'static [u8] {
    match setting {
        Setting::Prompt => b"\n",
        Setting::Pipe | Setting::Paired => b"",
    }
}
