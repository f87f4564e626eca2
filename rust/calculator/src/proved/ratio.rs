// Erased from crates/ratio/src/main.rt by rust/erase: not to be edited.
//! The program `ratio`, which `./ratio` runs, over `ratio_expressions`: the value of the expression in its arguments, or the values of the
//! lines of its input, and its status.
use bakhsney::memory::{Global, String};

mod answering;

pub mod fault;
mod help;
mod option;
mod prompt;
mod request;
mod setting;
mod writing;

use crate::host::{LineRead, arguments, input, is_terminal};
use answering::{answer_expression, answer_lines};
use fault::{Fault, report};
use help::{HELP, VERSION};
use crate::proved::ratio_expressions::replies::Form;
use crate::proved::ratio_lines::counted::{CalcWrite, Counted};
use request::{Request, requested};
use setting::{Setting, setting_of};

use std::process::ExitCode;
use writing::write;

#[inline]
pub fn main() -> ExitCode {
    let outcome = run_here();
    if let Err(fault) = &outcome {
        let _ = report(&mut Counted::new(crate::host::stderr()), fault);
    }
    status_of(&outcome)
}

// Does what the program's arguments ask for, and says whether each line has a value.
#[inline]
fn run_here() -> Result<bool, Fault> {
    let words = arguments()?;
    let mut reader = input()?;
    run(
        Global,
        &words,
        is_terminal(),
        &mut reader,
        &mut Counted::new(crate::host::stdout()),
        &mut Counted::new(crate::host::stderr()),
    )
}

// Does what the arguments ask for, and says whether each line has a value.
#[inline]
fn run<R: LineRead<W>, W: CalcWrite, E: CalcWrite>(
    alloc: Global,
    words: &[String],
    on_terminal: bool,
    input: &mut R,
    output: &mut W,
    errors: &mut E,
) -> Result<bool, Fault> {
    let request = requested(alloc, words)?;
    serve(alloc, request, on_terminal, input, output, errors)
}

// Does what a request says.
#[inline]
fn serve<R: LineRead<W>, W: CalcWrite, E: CalcWrite>(
    alloc: Global,
    request: Request,
    on_terminal: bool,
    input: &mut R,
    output: &mut W,
    errors: &mut E,
) -> Result<bool, Fault> {
    match request {
        Request::Help => print_text(output, HELP),
        Request::Version => print_text(output, VERSION),
        Request::Expression(text, form) => answer_expression(alloc, &text, form, output, errors),
        Request::Lines(form, paired) => {
            let setting = setting_of(paired, on_terminal);
            let form = form.unwrap_or(form_of_lines(setting));
            answer_lines(alloc, form, setting, input, output)
        }
    }
}

// Prints a text.
#[inline]
fn print_text<W: CalcWrite>(output: &mut W, text: &str) -> Result<bool, Fault> {
    write(output, text.as_bytes())?;
    Ok(true)
}

// The form of lines without one that was asked for: at a prompt the fraction has its decimal beside it.
#[inline]
fn form_of_lines(setting: Setting) -> Form {
    match setting {
        Setting::Prompt => Form::Both,
        Setting::Pipe | Setting::Paired => Form::Fraction,
    }
}

// The program's status: 0 if each line has a value, 1 if one has none, and 2 if the program stopped before its end.
#[inline]
fn status_of(outcome: &Result<bool, Fault>) -> ExitCode {
    match outcome {
        Ok(true) => ExitCode::SUCCESS,
        Ok(false) => ExitCode::FAILURE,
        Err(_) => ExitCode::from(2u8),
    }
}
