// Erased from crates/ratio_expressions/src/lib.rt by rust/erase: not to be edited.
//! Expressions such as `2 + 3 * 4`, of any size: from a text to a tree, its value, and the reply to the person who typed it.
//!
//! `line::value_of_line` returns the `Value` of a line, or by a `ValueError` why it has none, and `Names` keeps the names that lines give their values.
//! `replies::reply_to` makes a `Reply` of that, with the number in a `Form`: in `Mixed`, the line `x = 1 + 5/12` is answered `1 5/12`.
//!
//! The program `ratio` asks for a reply so, and writes the text with a line end:
//!
//! ```rattle
//! match reply_to(alloc, line, form, names)? {
//!     Reply::Nothing => Ok((blank_answer(alloc, setting)?, true)),
//!     Reply::Answer(text) => Ok((with_end(text)?, true)),
//!     Reply::Refused(text) => {
//!         let text = refusal(alloc, setting, line, text)?;
//!         Ok((with_end(text)?, false))
//!     }
//! }
//! ```
mod assignment;
mod calls;
pub mod depth;
mod evaluation;
pub mod expression;
mod function;

pub mod lexer;
mod limit;
pub mod line;
pub mod names;
mod number;
mod operation;
pub mod parser;
mod power;
pub mod refusal;
pub mod replies;
mod size;
pub mod slashes;
mod spelled;
pub mod step;
pub mod text_value;
pub mod token;
pub mod value;

mod vulgar;
