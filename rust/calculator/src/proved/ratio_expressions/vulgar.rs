// Erased from crates/ratio_expressions/src/vulgar.rt by rust/erase: not to be edited.
//! The vulgar fraction that a text begins with, such as `½`.

/// The vulgar fraction that a text begins with, with a slash, and its length: `1/2` and 2 for `½`.
#[inline]
pub(crate) fn vulgar_at(text: &[u8]) -> Option<(&'static [u8], usize)> {
    match text {
        [0xC2, last, ..] => Some((of_two(*last)?, 2)),
        [0xE2, middle, last, ..] => Some((of_three(*middle, *last)?, 3)),
        _ => None,
    }
}

/// How long the vulgar fraction is that a text begins with, or 0.
#[inline]
pub(crate) fn vulgar_length(text: &[u8]) -> usize {
    match vulgar_at(text) {
        Some((_, long)) => long,
        None => 0,
    }
}

// `¼`, `½` and `¾`, by the second of their bytes.
#[inline]
fn of_two(last: u8) -> Option<&'static [u8]> {
    match last {
        0xBC => Some(b"1/4"),
        0xBD => Some(b"1/2"),
        0xBE => Some(b"3/4"),
        _ => None,
    }
}

// The fractions of three bytes, by the last two.
#[inline]
fn of_three(middle: u8, last: u8) -> Option<&'static [u8]> {
    match (middle, last) {
        (0x85, _) => number_form(last),
        (0x86, 0x89) => Some(b"0/3"),
        _ => None,
    }
}

// The fractions from `⅐` to `⅞`, by the last of their bytes.
#[inline]
fn number_form(last: u8) -> Option<&'static [u8]> {
    match last {
        0x90 => Some(b"1/7"),
        0x91 => Some(b"1/9"),
        0x92 => Some(b"1/10"),
        0x93 => Some(b"1/3"),
        0x94 => Some(b"2/3"),
        0x95 => Some(b"1/5"),
        0x96 => Some(b"2/5"),
        0x97 => Some(b"3/5"),
        0x98 => Some(b"4/5"),
        0x99 => Some(b"1/6"),
        0x9A => Some(b"5/6"),
        0x9B => Some(b"1/8"),
        0x9C => Some(b"3/8"),
        0x9D => Some(b"5/8"),
        0x9E => Some(b"7/8"),
        _ => None,
    }
}
