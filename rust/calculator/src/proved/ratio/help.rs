// Erased from crates/ratio/src/help.rt by rust/erase: not to be edited.
//! The texts of `--help` and `--version`.

/// What `--version` prints.
pub const VERSION: &str = "ratio 0.1.0\n";

/// What `--help` prints.
pub const HELP: &str = "\
usage: ratio [OPTION].. [EXPRESSION..]

Prints the exact value of an expression, such as 1/3 + 0.25. Arguments are
joined by a space. Without an expression, it answers each line of standard
input. There, x = 3/7 names a value, and ans is the value before.

  --fraction     7/12, and 5 for 5/1 (the default)
  --decimal N    with N places, rounded half away from zero; so --decimal=N
  --mixed        1 5/12
  --float        0.5833333333333334, the nearest float of 64 bits
  --both         7/12 ≈ 0.583333, and 1/4 = 0.25 if exact (the default at a
                 prompt, on a terminal)
  --lines        one line of output for each line of input, without a prompt:
                 a refusal is one line, and a blank line has a blank line
  -h, --help     this text
  --version      the version
  --             what follows is no option

At a prompt, help shows examples, and quit and exit end.

The status is 0, or 1 if an expression or a line has no value. It is 2 if an
option is wrong, the memory does not suffice, or reading or writing fails.
";
