//! Operands, the simplest ones first.

pub type Fraction = (i8, i8);
pub type Operands = (Fraction, Fraction);

const NUMBERS: [i8; 17] = [
    0, 1, -1, 2, -2, 3, -3, 4, 5, 7, 63, 64, 100, 126, 127, -127, -128,
];

/// The cost of a number: small numbers cost least, then those at the ends of the type.
fn cost(number: i8) -> u32 {
    let magnitude = u32::from(number.unsigned_abs());
    let near = if magnitude > 32 {
        8 + magnitude.abs_diff(128)
    } else {
        2 * magnitude
    };
    near + u32::from(number < 0)
}

fn cost_of(operands: &Operands) -> u32 {
    let ((a, b), (c, d)) = *operands;
    cost(a) + cost(b) + cost(c) + cost(d)
}

/// All pairs of fractions of these numbers, the simplest ones first.
pub fn pairs() -> Vec<Operands> {
    let fractions = || {
        NUMBERS
            .into_iter()
            .flat_map(|n| NUMBERS.into_iter().filter(|d| *d != 0).map(move |d| (n, d)))
    };
    let mut all: Vec<Operands> = fractions()
        .flat_map(|x| fractions().map(move |y| (x, y)))
        .collect();
    all.sort_by_key(cost_of);
    all
}

/// The operands that an argument NAME=A,B,C,D gives for the call with this name.
pub fn read(text: &str, name: &str) -> Option<Operands> {
    let numbers = text.strip_prefix(name)?.strip_prefix('=')?;
    let mut numbers = numbers.split(',').map(|number| number.parse().ok());
    let mut next = || numbers.next().flatten();
    Some(((next()?, next()?), (next()?, next()?)))
}

pub fn show_fraction((n, d): Fraction) -> String {
    if d == 1 {
        n.to_string()
    } else {
        format!("{n}/{d}")
    }
}
