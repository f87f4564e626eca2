// Erased from crates/ratio/src/option.rt by rust/erase: not to be edited.
//! The options by their names, and a number of places.

use crate::proved::ratio_expressions::replies::Form;

/// A page that the program prints in place of a value.
#[derive(Clone, Copy, PartialEq, Debug)]
pub enum Page {
    /// The text of `--help`.
    Help,
    /// The text of `--version`.
    Version,
}

/// What an option asks for.
#[derive(Clone, Copy, PartialEq, Debug)]
pub enum Asked {
    /// A page: `--help`.
    Page(Page),
    /// A form: `--mixed`.
    Form(Form),
    /// `--lines`: one line of output for each line of input.
    Lines,
    /// `--decimal`: the number of places comes next.
    Places,
    /// `--`: there are no more options.
    End,
}

/// Whether an argument is an option, known or not: `--`, or one or two dashes and a letter. `-1/2` is an expression, and so is `--1`.
#[inline]
pub fn is_option(word: &[u8]) -> bool {
    match word {
        [b'-', b'-'] => true,
        [b'-', b'-', first, ..] => first.is_ascii_alphabetic(),
        [b'-', first, ..] => first.is_ascii_alphabetic(),
        _ => false,
    }
}

/// What the option of this name asks for, or `None` if there is none.
#[inline]
pub fn option_named(word: &[u8]) -> Option<Asked> {
    if word == b"-h".as_slice() || word == b"--help".as_slice() {
        return Some(Asked::Page(Page::Help));
    }
    if word == b"--version".as_slice() {
        return Some(Asked::Page(Page::Version));
    }
    if word == b"--fraction".as_slice() {
        return Some(Asked::Form(Form::Fraction));
    }
    if word == b"--mixed".as_slice() {
        return Some(Asked::Form(Form::Mixed));
    }
    if word == b"--both".as_slice() {
        return Some(Asked::Form(Form::Both));
    }
    if word == b"--float".as_slice() {
        return Some(Asked::Form(Form::Float));
    }
    if word == b"--lines".as_slice() {
        return Some(Asked::Lines);
    }
    if word == b"--decimal".as_slice() {
        return Some(Asked::Places);
    }
    if word == b"--".as_slice() {
        return Some(Asked::End);
    }
    None
}

/// What is behind `--decimal=`, if an argument begins so: `4` of `--decimal=4`.
#[inline]
pub fn number_behind(word: &str) -> Option<&str> {
    word.strip_prefix("--decimal=")
}

/// The number of places that an argument says, up to 1,000,000, or `None`.
#[inline]
pub fn places(word: &str) -> Option<u32> {
    match word.parse::<u32>() {
        Ok(n) if n <= 1_000_000 => Some(n),
        _ => None,
    }
}
