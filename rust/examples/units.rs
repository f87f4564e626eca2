//! A converter of units. Each factor is a fraction, so no step rounds. Where the digits of a result do not end, it prints four places, and the
//! fraction beside them:
//!
//! ```text
//! 1 mi = 1.609344 km
//! 6 ft = 182.88 cm
//! 1 1/2 gal = 5.678117676 l
//! 100 km/h = 62.1371 mph, exactly 781250/12573
//! 1/3 in = 8.4667 mm, exactly 127/15
//! 9223372036854775807 mi: the result does not fit
//! 5,5 in: the text is not a number such as -0.5, 3/4, -1 1/2 or 12.5%
//! 1 mi: mi is no kg
//! ```
use bakhsney::Reduced64;

/// What one of the first unit is in the second one: the third column over the fourth.
const FACTORS: [(&str, &str, &str, &str); 5] = [
    ("mi", "km", "1.609344", "1"),
    ("ft", "cm", "30.48", "1"),
    ("gal", "l", "3.785411784", "1"),
    ("km/h", "mph", "1", "1.609344"),
    ("in", "mm", "25.4", "1"),
];

fn factor(from: &str, to: &str) -> Option<Reduced64> {
    let (_, _, above, below) = FACTORS.iter().find(|row| (row.0, row.1) == (from, to))?;
    Reduced64::from_decimal(above).ok()?.checked_div(Reduced64::from_decimal(below).ok()?)
}

fn convert(amount: &str, from: &str, to: &str) -> Result<String, String> {
    let factor = factor(from, to).ok_or(format!("{from} is no {to}"))?;
    let amount = Reduced64::from_text(amount).map_err(|refusal| refusal.to_string())?;
    let result = amount.checked_mul(factor).ok_or("the result does not fit")?;
    Ok(match result.exact_decimal() {
        Some(decimal) => format!("{decimal} {to}"),
        None => format!("{result:.4} {to}, exactly {result}"),
    })
}

fn main() {
    let rows = [
        ("1", "mi", "km"), ("6", "ft", "cm"), ("1 1/2", "gal", "l"), ("100", "km/h", "mph"), ("1/3", "in", "mm"),
        ("9223372036854775807", "mi", "km"), ("5,5", "in", "mm"), ("1", "mi", "kg"),
    ];
    for (amount, from, to) in rows {
        match convert(amount, from, to) {
            Ok(result) => println!("{amount} {from} = {result}"),
            Err(refusal) => println!("{amount} {from}: {refusal}"),
        }
    }
}
