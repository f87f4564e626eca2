//! The pairs of one kind, as each of the three takes them.

use crate::kinds::Fields;
use crate::proved::{Crossing, Fraction, Pair, Span};
use crate::{erased, theirs};
use crate::answer::Number;

pub struct Inputs<C: Crossing> {
    pub fields: Vec<Fields>,
    pub proved: Vec<Pair<C>>,
    /// The first fraction of each pair.
    pub first: Vec<Fraction<C>>,
    pub erased: Vec<erased::Pair<C::Number>>,
    pub first_erased: Vec<bakhsney::Ratio<C::Number>>,
    pub theirs: Vec<theirs::Pair<C::Number>>,
    pub first_theirs: Vec<num_rational::Ratio<C::Number>>,
}

impl<C: Crossing> Inputs<C>
where
    C::Number: bakhsney::integer::Integer,
{
    pub fn new(fields: Vec<Fields>) -> Inputs<C> {
        let number = C::Number::narrow;
        let erased = |n, d| bakhsney::Ratio::new_raw(number(n), number(d));
        let theirs = |n, d| num_rational::Ratio::new_raw(number(n), number(d));
        let proved: Vec<Pair<C>> = fields.iter().map(Pair::of).collect();
        Inputs {
            first: proved.iter().map(Pair::left).collect(),
            proved,
            erased: fields.iter().map(|f| (erased(f[0], f[1]), erased(f[2], f[3]))).collect(),
            first_erased: fields.iter().map(|f| erased(f[0], f[1])).collect(),
            first_theirs: fields.iter().map(|f| theirs(f[0], f[1])).collect(),
            theirs: fields.iter().map(|f| (theirs(f[0], f[1]), theirs(f[2], f[3]))).collect(),
            fields,
        }
    }

    pub fn only(&self, wanted: impl Fn(&Fields) -> bool) -> Inputs<C> {
        Inputs::new(self.fields.iter().filter(|f| wanted(f)).copied().collect())
    }

    pub fn len(&self) -> usize {
        self.fields.len()
    }
}

/// Texts one after another, and the place of each.
pub struct Texts {
    pub bytes: Vec<u8>,
    pub spans: Vec<Span>,
}

impl Texts {
    fn of(texts: impl Iterator<Item = String>) -> Texts {
        let (mut bytes, mut spans) = (Vec::new(), Vec::new());
        for text in texts {
            let start = bytes.len();
            bytes.extend_from_slice(text.as_bytes());
            spans.push(Span { start, end: bytes.len() });
        }
        Texts { bytes, spans }
    }

    pub fn decimal(fields: &[Fields]) -> Texts {
        Texts::of(fields.iter().map(|f| format!("{}/{}", f[0], f[1])))
    }

    pub fn hexadecimal(fields: &[Fields]) -> Texts {
        let minus = |n: i128| if n < 0 { "-" } else { "" };
        Texts::of(fields.iter().map(|f| format!("{}{:x}/{:x}", minus(f[0]), f[0].unsigned_abs(), f[1])))
    }
}
