//! The rows of the page's sheet: what each line of a text is answered. Names go on from line to line.
//!
//! The fields of a row have tabs between them:
//!
//! | Kind | The fields behind it |
//! |---|---|
//! | `value` | `true` or `false`; or the fraction, the decimal and the mixed number. Then the line as it was read, if a chain of its slashes is taken whole |
//! | `refused` | the reason and the column, as the last line of a refusal has them |
//! | `memory` | none: the memory did not suffice |
//! | `empty` | none: the line has only spaces |
//!
//! The replies are the proved calls'. This file cuts a text into lines and puts the kinds before the replies, by hand: `rust/page/test` tries it.
use crate::proved::ratio_expressions::names::Names;
use crate::proved::ratio_expressions::replies::{reply_to, Form, Reply};
use crate::proved::ratio_expressions::slashes::read_as;
use bakhsney::memory::{AllocError, Global};
use bakhsney::proved::ratio_big::BigFraction;

/// Hands on the row of each line, with so many places of the decimals, before it computes the next one.
pub fn rows(text: &[u8], places: u32, take: impl Fn(&[u8])) {
    let mut names = Names::new(Global);
    for line in text.split(is_line_end) {
        let mut out = Vec::new();
        match reply_to(Global, line, Form::Fields(places), &mut names) {
            Ok(Reply::Nothing) => out.extend_from_slice(b"empty"),
            Ok(Reply::Answer(fields)) => {
                put_row("value", &fields, &mut out);
                put_reading(line, &mut out);
            }
            Ok(Reply::Refused(text)) => put_row("refused", text.rsplit(is_line_end).next().unwrap_or_default(), &mut out),
            Err(AllocError) => out.extend_from_slice(b"memory"),
        }
        take(&out);
    }
}

fn is_line_end(byte: &u8) -> bool {
    *byte == b'\n'
}

fn put_row(kind: &str, fields: &[u8], out: &mut Vec<u8>) {
    out.extend_from_slice(kind.as_bytes());
    out.push(b'\t');
    out.extend_from_slice(fields);
}

fn put_reading(line: &[u8], out: &mut Vec<u8>) {
    if let Ok(Some(shown)) = read_as(Global, line) {
        out.push(b'\t');
        out.extend_from_slice(&shown);
    }
}

/// The quotients of the continued fraction of a fraction, with spaces between them. Nothing if the text is no fraction, or if the memory does
/// not suffice.
pub fn quotients(text: &[u8]) -> Vec<u8> {
    let found = std::str::from_utf8(text).ok().and_then(|text| quotient_texts(text).ok().flatten());
    found.unwrap_or_default().join(" ").into_bytes()
}

fn quotient_texts(text: &str) -> Result<Option<Vec<String>>, AllocError> {
    match BigFraction::from_text(Global, text)? {
        Err(_) => Ok(None),
        Ok(x) => {
            let quotients = x.continued_fraction(Global)?;
            let texts: Result<Vec<String>, AllocError> = quotients.iter().map(|quotient| Ok(quotient.to_text(Global)?.into_std())).collect();
            texts.map(Some)
        }
    }
}
