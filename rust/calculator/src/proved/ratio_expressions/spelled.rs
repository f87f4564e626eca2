// Erased from crates/ratio_expressions/src/spelled.rt by rust/erase: not to be edited.
//! A number with a slash in place of its vulgar fraction: `1 1/2` for `1½`.

use bakhsney::memory::{AllocError, Global, Vec};
use crate::proved::ratio_expressions::vulgar::vulgar_at;

/// The text with a slash in place of its vulgar fraction, or `None` if it has none.
#[inline]
pub(crate) fn spelled(alloc: Global, text: &[u8]) -> Result<Option<Vec<u8>>, AllocError> {
    let at = ascii_bytes(text);
    match vulgar_at(&text[at..]) {
        Some((fraction, long)) => {
            let mut bytes = Vec::from_slice(alloc, &text[..at])?;
            bytes.extend_from_slice(gap(text, at))?;
            bytes.extend_from_slice(fraction)?;
            bytes.extend_from_slice(&text[at + long..])?;
            Ok(Some(bytes))
        }
        None => Ok(None),
    }
}

// How many bytes are before the first character beyond ASCII.
#[inline]
fn ascii_bytes(text: &[u8]) -> usize {
    text.iter().take_while(|byte| byte.is_ascii()).count()
}

// A space, if a digit is before the place.
#[inline]
fn gap(text: &[u8], at: usize) -> &'static [u8] {
    if at > 0 && text[at - 1].is_ascii_digit() {
        b" "
    } else {
        b""
    }
}
