// Erased from crates/ratio_expressions/src/step.rt by rust/erase: not to be edited.
//! `Step`: one step of a tree in postfix order, as a parser returns it.
use crate::proved::ratio_expressions::token::{Operator, Sign, Span};

/// A call of a name, and where its parts are.
#[derive(Clone, Copy, PartialEq, Debug)]
pub struct Call {
    pub name: Span,
    pub opening: Span,
    pub closing: Span,
    /// How many arguments it has, 1 at least.
    pub arguments: usize,
}

/// One step of a tree in postfix order: the operands of an operator come before it. `2 + 3 * 4` is 2, 3, 4, `*`, `+`, and
/// `max(1, 2)` is 1, 2, the comma, the call of `max` with two arguments.
#[derive(Clone, Copy, PartialEq, Debug)]
pub enum Step {
    /// The number that this piece of the text writes.
    Number(Span),
    /// The name that this piece of the text is.
    Name(Span),
    /// The last operand gets this sign, which is at this place.
    Sign(Sign, Span),
    /// The last two operands become one, by the operator at this place.
    Apply(Operator, Span),
    /// The last operand was in these two parentheses, and stays as it is.
    Group(Span, Span),
    /// The last two operands are arguments of a call, with this comma between them. They stay as they are.
    Comma(Span),
    /// The last operands, as many as it has arguments, become one by this call.
    Call(Call),
}
