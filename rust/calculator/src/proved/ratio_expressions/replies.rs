// Erased from crates/ratio_expressions/src/replies.rt by rust/erase: not to be edited.
//! What a line that a person types is answered: its value in a form, or why it has none, with a caret below the place.

mod both;
mod fields;
mod float;
mod form;
mod hint;

mod mixed;
mod reading;
mod refused;
mod reply;
mod slip;
mod written;

pub use form::Form;
pub use reply::{Reply, reply_to};
pub use written::value_text;
