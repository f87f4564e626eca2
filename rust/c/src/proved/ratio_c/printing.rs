// Erased from crates/ratio_c/src/printing.rt by rust/erase: not to be edited.
//! Printing fractions as texts, one after another into one piece of memory.

use crate::proved::ratio_c::code::{ANSWERED, ZERO_DENOMINATOR};
use crate::proved::ratio_c::crossing::OneFraction;
use crate::proved::ratio_c::each::{BAD_LENGTH, DONE};
use crate::proved::ratio_c::reading::Span;
use bakhsney::proved::ratio_core::text::base_ten_text;
use bakhsney::proved::ratio_integer::Integer;

/// The place of an item's text. If there is none, the code says why, and the span is empty.
#[repr(C)]
pub struct Text {
    pub code: u32,
    pub span: Span,
}

/// A way to print an item.
pub trait Printer<F> {
    /// Writes the text of an item at a place.
    ///
    /// # Conditions
    ///
    /// The proof requires of the caller:
    ///
    /// - `at + longest ≤ length texts.old`
    fn put(&self, x: &F, texts: &mut [u8], at: usize) -> Text;
}

/// Writes the texts of items one after another, and the place of each. If there is not one answer
/// for each item, or not `room` bytes for each text, it returns `BAD_LENGTH` and writes nothing.
///
/// # Conditions
///
/// The proof requires of the caller:
///
/// - `P.longest ≤ room`
#[inline(always)]
pub fn print<P: Printer<F>, F>(
    printer: &P,
    asked: &[F],
    room: usize,
    texts: &mut [u8],
    answers: &mut [Text],
) -> u32 {
    if asked.len() != answers.len() || !has_room(asked.len(), room, texts.len()) {
        return BAD_LENGTH;
    }
    let mut at = 0;
    for i in 0..asked.len() {
        let text = printer.put(&asked[i], texts, at);
        at = text.span.end;
        answers[i] = text;
    }
    DONE
}

/// Whether `len` bytes are enough for `count` texts of `room` bytes each.
#[inline]
fn has_room(count: usize, room: usize, len: usize) -> bool {
    match count.checked_mul(room) {
        Some(all) => all <= len,
        None => false,
    }
}

/// Prints the two numbers of a fraction, `N/D`, or `N` if D is 1.
#[derive(Clone, Copy)]
pub struct Fields;

impl<F: OneFraction> Printer<F> for Fields {
    #[inline]
    fn put(&self, x: &F, texts: &mut [u8], at: usize) -> Text {
        let (n, d) = x.fraction();
        if d.is_zero() {
            return no_text(ZERO_DENOMINATOR, at);
        }
        let text = base_ten_text(n, d);
        put_bytes(text.as_str().as_bytes(), texts, at)
    }
}

/// Writes the bytes of a text at a place.
///
/// # Conditions
///
/// The proof requires of the caller:
///
/// - `at + length bytes.now ≤ length texts.old`
#[inline]
pub fn put_bytes(bytes: &[u8], texts: &mut [u8], at: usize) -> Text {
    let end = at + bytes.len();
    texts[at..end].copy_from_slice(bytes);
    let span = Span { start: at, end };
    Text {
        code: ANSWERED,
        span,
    }
}

/// An empty span at a place, with the code that says why there is no text.
#[inline]
pub fn no_text(code: u32, at: usize) -> Text {
    let span = Span { start: at, end: at };
    Text { code, span }
}
