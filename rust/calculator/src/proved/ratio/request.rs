// Erased from crates/ratio/src/request.rt by rust/erase: not to be edited.
//! What the arguments ask for, or why they are refused.

use bakhsney::memory::{AllocError, Global, String, Vec};
use crate::proved::ratio::fault::Fault;
use crate::proved::ratio::option::{Asked, Page, is_option, number_behind, option_named, places};
use crate::proved::ratio_expressions::replies::Form;

/// What the arguments ask for.
pub enum Request {
    /// The text of `--help`.
    Help,
    /// The text of `--version`.
    Version,
    /// The value of this expression in this form.
    Expression(Vec<u8>, Form),
    /// The values of the lines of standard input, in this form or in the one that serves there, and with `--lines` or not.
    Lines(Option<Form>, bool),
}

// What the next argument is.
#[derive(Clone, Copy, PartialEq, Debug)]
enum Next {
    Any,
    Places,
    Text,
}

// What the arguments so far ask for.
struct SoFar {
    next: Next,
    page: Option<Page>,
    form: Option<Form>,
    paired: bool,
    text: Option<Vec<u8>>,
}

/// What the arguments ask for. Options may stand anywhere before a `--`.
#[inline]
pub fn requested(alloc: Global, words: &[String]) -> Result<Request, Fault> {
    let mut so_far = SoFar {
        next: Next::Any,
        page: None,
        form: None,
        paired: false,
        text: None,
    };
    for word in words {
        so_far.take(alloc, word.as_str())?;
    }
    so_far.request()
}

impl SoFar {
    // Takes one more argument.
    #[inline]
    fn take(&mut self, alloc: Global, word: &str) -> Result<(), Fault> {
        match self.next {
            Next::Places => self.take_places(word),
            Next::Any if is_option(word.as_bytes()) => self.take_option(alloc, word),
            Next::Any | Next::Text => {
                self.take_text(alloc, word)?;
                Ok(())
            }
        }
    }

    // Takes the number behind `--decimal`.
    #[inline]
    fn take_places(&mut self, word: &str) -> Result<(), Fault> {
        match places(word) {
            Some(n) => {
                self.form = Some(Form::Decimal(n));
                self.next = Next::Any;
                Ok(())
            }
            None => Err(Fault::NoPlaces),
        }
    }

    // Takes an option.
    #[inline]
    fn take_option(&mut self, alloc: Global, word: &str) -> Result<(), Fault> {
        match option_named(word.as_bytes()) {
            None => self.take_unnamed(alloc, word),
            Some(Asked::Lines) => {
                self.paired = true;
                Ok(())
            }
            Some(Asked::Form(form)) => {
                self.form = Some(form);
                Ok(())
            }
            Some(Asked::Places) => {
                self.next = Next::Places;
                Ok(())
            }
            Some(Asked::End) => {
                self.next = Next::Text;
                Ok(())
            }
            Some(Asked::Page(page)) => {
                self.page = Some(page);
                Ok(())
            }
        }
    }

    // Takes an option without a name of its own, as `--decimal=4`.
    #[inline]
    fn take_unnamed(&mut self, alloc: Global, word: &str) -> Result<(), Fault> {
        let number = match number_behind(word) {
            Some(number) => number,
            _ => {
                return Err(Fault::UnknownOption(String::from_str(alloc, word)?));
            }
        };
        match places(number) {
            Some(n) => {
                self.form = Some(Form::Decimal(n));
                Ok(())
            }
            None => Err(Fault::NoPlaces),
        }
    }

    // Takes a part of the expression.
    #[inline]
    fn take_text(&mut self, alloc: Global, word: &str) -> Result<(), AllocError> {
        match &mut self.text {
            Some(text) => {
                text.push(b' ')?;
                text.extend_from_slice(word.as_bytes())
            }
            None => {
                let text = Vec::from_slice(alloc, word.as_bytes())?;
                self.text = Some(text);
                Ok(())
            }
        }
    }

    // What all the arguments ask for.
    #[inline]
    fn request(self) -> Result<Request, Fault> {
        let SoFar {
            next,
            page,
            form,
            paired,
            text,
        } = self;
        match page {
            Some(Page::Help) => return Ok(Request::Help),
            Some(Page::Version) => return Ok(Request::Version),
            None => (),
        }
        match next {
            Next::Places => return Err(Fault::NoPlaces),
            Next::Any | Next::Text => (),
        }
        match text {
            Some(text) => Ok(Request::Expression(text, form.unwrap_or(Form::Fraction))),
            None => Ok(Request::Lines(form, paired)),
        }
    }
}
