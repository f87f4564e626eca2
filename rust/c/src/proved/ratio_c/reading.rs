// Erased from crates/ratio_c/src/reading.rt by rust/erase: not to be edited.
//! Reading fractions, each from a span of bytes: from texts such as `-2/4`, and from what a person types.

use crate::proved::ratio_c::code::{ANSWERED, NO_TEXT, NOT_HELD, PARSE_ERROR, ZERO_DENOMINATOR};
use crate::proved::ratio_c::crossing::{Digest, Reply, refused};
use crate::proved::ratio_c::each::Call;
use bakhsney::proved::num_rational::{Ratio, RatioErrorKind};
use bakhsney::proved::ratio_decimal::{TextRefusal, from_text};
use core::marker::PhantomData;

/// The places where a text starts and ends.
#[repr(C)]
pub struct Span {
    pub start: usize,
    pub end: usize,
}

/// A way to read a text as a fraction.
pub trait Reader {
    /// The type of its two numbers in the library.
    type Inside: Digest;

    /// The two numbers of the fraction, or the code of the refusal.
    fn read(&self, text: &str) -> Result<(Self::Inside, Self::Inside), u32>;
}

/// The call that reads one of several texts.
pub struct Reading<'a, R> {
    pub texts: &'a [u8],
    pub reader: R,
}

impl<'a, R: Reader, A: Reply<R::Inside>> Call<Span, A> for Reading<'a, R> {
    #[inline(always)]
    fn answer(&self, span: &Span) -> A {
        if span.end < span.start || self.texts.len() < span.end {
            return refused(NO_TEXT);
        }
        match core::str::from_utf8(&self.texts[span.start..span.end]) {
            Ok(text) => match self.reader.read(text) {
                Ok((numer, denom)) => A::reply(ANSWERED, numer, denom),
                Err(code) => refused(code),
            },
            Err(_) => refused(PARSE_ERROR),
        }
    }
}

/// The reader of texts such as `-2/4`, over the type `T`.
pub struct Fractions<T> {
    marker: PhantomData<T>,
}

impl<T> Fractions<T> {
    /// The reader of texts such as `-2/4`, over the type `T`.
    #[inline(always)]
    pub fn new() -> Fractions<T> {
        Fractions {
            marker: PhantomData,
        }
    }
}

impl<T: Digest> Reader for Fractions<T> {
    type Inside = T;

    #[inline]
    fn read(&self, text: &str) -> Result<(T, T), u32> {
        match Ratio::<T>::from_str(text) {
            Ok(x) => Ok(x.into_raw()),
            Err(refusal) => Err(match refusal.kind() {
                RatioErrorKind::ParseError => wide_refusal(text),
                RatioErrorKind::ZeroDenominator => ZERO_DENOMINATOR,
            }),
        }
    }
}

/// Why a text has no fraction over a narrower type: it has one over 128 bits, or it has none there either.
#[cold]
fn wide_refusal(text: &str) -> u32 {
    match Ratio::<i128>::from_str(text) {
        Ok(_) => NOT_HELD,
        Err(refusal) => match refusal.kind() {
            RatioErrorKind::ParseError => PARSE_ERROR,
            RatioErrorKind::ZeroDenominator => ZERO_DENOMINATOR,
        },
    }
}

/// The reader of texts such as `3/4`, `-0.5`, `-1 1/2` and `12.5%`, over the type `T`.
pub struct TypedTexts<T> {
    marker: PhantomData<T>,
}

impl<T> TypedTexts<T> {
    /// The reader of what a person types, over the type `T`.
    #[inline(always)]
    pub fn new() -> TypedTexts<T> {
        TypedTexts {
            marker: PhantomData,
        }
    }
}

impl<T: Digest> Reader for TypedTexts<T> {
    type Inside = T;

    #[inline]
    fn read(&self, text: &str) -> Result<(T, T), u32> {
        match from_text::<T>(text) {
            Ok(x) => Ok((x.0, x.1)),
            Err(TextRefusal::NotNumber) => Err(PARSE_ERROR),
            Err(TextRefusal::ZeroDenominator) => Err(ZERO_DENOMINATOR),
            Err(TextRefusal::NotHeld) => Err(NOT_HELD),
        }
    }
}
