// Erased from crates/ratio_expressions/src/token.rt by rust/erase: not to be edited.
//! `Token`: a number, a name, an operator, a parenthesis or a comma, and its place in the text.

/// Where a token is: from its first byte to the byte behind it. The first byte of a text is at 0.
#[derive(Clone, Copy, PartialEq, Debug)]
pub struct Span {
    pub start: usize,
    pub end: usize,
}

/// How a division or a remainder is set between its operands. A person sees by it which of several slashes comes first.
#[derive(Clone, Copy, PartialEq, Debug)]
pub enum Spacing {
    /// A slash without a space on either side: `1/2`.
    Tight,
    /// With a space on one side, or a `÷` or a `%` without spaces: `1 /2`, `1÷2`.
    Half,
    /// With a space on both sides: `1 / 2`.
    Wide,
}

/// A sign before an operand.
#[derive(Clone, Copy, PartialEq, Debug)]
pub enum Sign {
    /// `+`
    Plus,
    /// `-`
    Minus,
}

/// An operator between two operands.
#[derive(Clone, Copy, PartialEq, Debug)]
pub enum Operator {
    /// `<`
    Less,
    /// `<=`
    AtMost,
    /// `=`
    Equal,
    /// `!=`
    NotEqual,
    /// `>=`
    AtLeast,
    /// `>`
    Greater,
    /// `+`, which is also a sign before an operand.
    Add,
    /// `-`, which is also a sign before an operand.
    Subtract,
    /// `*`, `×`, `·`, `∙` or `⋅`
    Multiply,
    /// `/`, `⁄` or `÷`
    Divide(Spacing),
    /// `%`
    Remainder(Spacing),
    /// `^` or `**`
    Power,
}

/// What a token is.
#[derive(Clone, Copy, PartialEq, Debug)]
pub enum Kind {
    Number,
    Name,
    Operator(Operator),
    /// An opening parenthesis.
    Open,
    /// A closing parenthesis.
    Close,
    /// A comma between two arguments of a call.
    Comma,
}

/// A piece of a text that belongs together: what it is, and where.
#[derive(Clone, Copy, PartialEq, Debug)]
pub struct Token {
    pub kind: Kind,
    pub span: Span,
}
