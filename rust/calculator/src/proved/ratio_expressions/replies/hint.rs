// Erased from crates/ratio_expressions/src/replies/hint.rt by rust/erase: not to be edited.
//! `Hint`: what a refused line is told to type.

use bakhsney::memory::{AllocError, Vec};

/// What a refused line is told to type: an example for a slip.
#[derive(Clone, Copy, PartialEq, Debug)]
pub enum Hint {
    /// A parenthesis behind an operand.
    Product,
    /// Two numbers side by side.
    SideBySide,
    /// A number behind one with a slash.
    BesideSlash,
    /// A mixed number before a power.
    MixedPower,
    /// A mixed number with the slash of Unicode.
    MixedSlash,
    /// A second point in a number.
    Points,
    /// Digits that go on.
    Repeating,
    /// A point behind a whole number.
    LastPoint,
    /// A name or a unit behind an operand.
    Unit,
    /// A sign of money, of feet or of inches.
    Currency,
    /// A cross for a product.
    Times,
    /// The word `of`.
    Share,
    /// The word `and`.
    Joined,
    /// An underscore between digits.
    Underscore,
    /// A comma in a number.
    Comma,
    /// A percent sign that belongs to no number.
    Percentage,
    /// The word `mod`.
    Remainder,
    /// Two slashes, or the word `div`.
    WholeQuotient,
    /// An exclamation mark.
    Factorial,
    /// A raised digit, or a call of `pow`.
    Power,
    /// A call of `sum`.
    Sum,
    /// A square root.
    Root,
    /// The number pi.
    Pi,
    /// A bracket or a brace.
    Bracket,
    /// A closing parenthesis too many, or too soon.
    Closing,
    /// A closing parenthesis that is missing.
    Unclosed,
    /// A colon.
    Proportion,
    /// A semicolon.
    Lines,
    /// A note behind the expression.
    Note,
    /// An equals sign with nothing on one side.
    Equals,
    /// Two equals signs.
    Same,
    /// Two comparisons in a line.
    Chain,
    /// Two equals signs with operands between.
    TwoNames,
    /// A comparison with its signs turned, or apart.
    Turned,
    /// An operator with an equals sign.
    Increase,
    /// A colon with an equals sign.
    Assigned,
    /// An operator at the beginning.
    GoingOn,
    /// An operator behind another one.
    OneOperator,
    /// A space that breaks no line.
    PlainSpace,
    /// A name of one letter before a parenthesis.
    NameProduct,
    /// A name without a value.
    NameFirst,
    /// A call that there is not.
    Calls,
}

impl Hint {
    /// The hint in words, for a person: an example that works when it is typed, and the slip that it stands for.
    #[inline]
    pub(crate) fn text(self) -> &'static str {
        match self {
            Hint::Product => "2*(3+4) for 2(3+4)",
            Hint::SideBySide => "2*3 or 2 + 3 for 2 3, and 1299 for 1 299",
            Hint::BesideSlash => "2/(1 1/2) for 2/1 1/2, and 1/2 * 1/3 for 1/2 1/3",
            Hint::MixedPower => "(1 1/2)^2 for 1 1/2^2",
            Hint::MixedSlash => "1 1/2, with the slash of the keyboard",
            Hint::Points => "1299000 for 1.299.000",
            Hint::Repeating => "1/3 for 0.333...",
            Hint::LastPoint => "5 for 5.",
            Hint::Unit => "3*x for 3x, and 1/2 for 1/2 cup",
            Hint::Currency => "5 for $5 or 5'",
            Hint::Times => "2*3 for 2 x 3, and 3*x for 3x",
            Hint::Share => "1/2 * 3 for 1/2 of 3",
            Hint::Joined => "1 1/2 for 1 and 1/2",
            Hint::Underscore => "1299 for 1_299",
            Hint::Comma => "12.50 for 12,50, and 1299 for 1,299",
            Hint::Percentage => "x/100 for x%, and (1/2)/100 for 1/2%",
            Hint::Remainder => "12 % 5 for 12 mod 5, with the sign of 12",
            Hint::WholeQuotient => "floor(7/2) for 7 // 2",
            Hint::Factorial => "5*4*3*2 for 5!",
            Hint::Power => "3^2 for pow(3, 2) or for a raised 2",
            Hint::Sum => "1 + 2 for sum(1, 2)",
            Hint::Root => "99/70 for sqrt(2), which is no fraction",
            Hint::Pi => "22/7 or 355/113 for pi, which is no fraction",
            Hint::Bracket => "(2+3) for [2+3]",
            Hint::Closing => "(2+3) for (2+3)), (2+) or ()",
            Hint::Unclosed => "(2+3) for (2+3",
            Hint::Proportion => "16/9 for 16:9",
            Hint::Lines => "1 and 2 on a line each for 1; 2",
            Hint::Note => "2+3 for 2+3 # a note",
            Hint::Equals => "2+3 for 2+3= or =2+3",
            Hint::Same => "1/2 = 0.5 for 1/2 == 0.5, and (x) = 1 for x == 1",
            Hint::Chain => "1 < 2 and then 2 < 3 for 1 < 2 < 3",
            Hint::TwoNames => "b = 1 and then a = b for a = b = 1",
            Hint::Turned => "2 <= 3 for 2 =< 3, 3 >= 2 for 3 => 2, and 2 != 3 for 2 <> 3",
            Hint::Increase => "x = x + 1 for x += 1",
            Hint::Assigned => "x = 3 for x := 3",
            Hint::GoingOn => "ans * 5 for * 5",
            Hint::OneOperator => "2 * 3 for 2 * / 3",
            Hint::PlainSpace => "a plain space",
            Hint::NameProduct => "x*(3+4) for x(3+4)",
            Hint::NameFirst => "x = 3 first, to use x",
            Hint::Calls =>
                "floor(7/2), or another of abs, ceil, round, trunc, cents, min, max, gcd, lcm, nearest, between",
        }
    }
}

/// Puts the hint at the end of a refusal, if there is one.
#[inline]
pub(crate) fn put_advice(text: &mut Vec<u8>, hint: Option<Hint>) -> Result<(), AllocError> {
    if let Some(hint) = hint {
        text.extend_from_slice(b"; type ")?;
        text.extend_from_slice(hint.text().as_bytes())?;
    }
    Ok(())
}
