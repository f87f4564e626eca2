//! Answers each line of standard input as the proved calls of expressions do, with names from line to line. An answer is a value, and how the
//! slashes of the line were read if the line does not say so, or a reason, the place in bytes and the column. `beside_python` compares them.
mod host;
mod proved;

use crate::proved::ratio_expressions::expression::column;
use crate::proved::ratio_expressions::line::value_of_line;
use crate::proved::ratio_expressions::names::Names;
use crate::proved::ratio_expressions::refusal::ValueError;
use crate::proved::ratio_expressions::slashes::read_as;
use crate::proved::ratio_expressions::text_value::value_of;
use crate::proved::ratio_expressions::value::Value;
use bakhsney::memory::{AllocError, Global};
use std::io::{self, BufRead, BufWriter, Write};

fn printed(value: &Value) -> Result<String, AllocError> {
    Ok(match value {
        Value::Number(x) => x.to_text(Global)?.into_std(),
        Value::Truth(truth) => truth.to_string(),
    })
}

/// The value of a text, or nothing, as text.
fn outcome(text: &[u8], names: &Names) -> Result<Option<String>, AllocError> {
    value_of(Global, text, names).ok().map(|value| printed(&value)).transpose()
}

fn answered(text: &[u8], names: &mut Names) -> Result<String, AllocError> {
    let read = read_as(Global, text)?;
    if let Some(read) = &read {
        assert_eq!(outcome(text, names)?, outcome(read, names)?, "{}", String::from_utf8_lossy(text));
    }
    match value_of_line(Global, text, names) {
        Ok(value) => Ok(match read {
            Some(read) => format!("{}\t{}", printed(&value)?, String::from_utf8_lossy(&read)),
            None => printed(&value)?,
        }),
        Err(ValueError::Refused(refusal)) => Ok(format!("{:?} {} {}", refusal.reason, refusal.place, column(text, refusal.place))),
        Err(ValueError::Memory) => Err(AllocError),
    }
}

fn main() -> io::Result<()> {
    let mut out = BufWriter::new(io::stdout().lock());
    let mut names = Names::new(Global);
    for line in io::stdin().lock().split(b'\n') {
        let answer = answered(&line?, &mut names).expect("memory");
        writeln!(out, "{answer}")?;
    }
    out.flush()
}
