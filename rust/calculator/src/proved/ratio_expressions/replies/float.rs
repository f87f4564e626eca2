// Erased from crates/ratio_expressions/src/replies/float.rt by rust/erase: not to be edited.
//! The float nearest to a number, as a decimal: `0.5833333333333334` for 7/12.

use bakhsney::memory::{AllocError, Global, Vec};
use bakhsney::proved::ratio_big::BigFraction;
use bakhsney::proved::ratio_decimal::rounding_rule::Rounding;

/// The places of 2^-1074, the least float above 0. No float has more.
const MOST_PLACES: u32 = 1074;

/// The text of the nearest float of 64 bits: its exact value with the fewest places that read back as this float, rounded half to even. So it
/// is `0.1` for 1/10, and `0` for 2^-1075 and for its negative. From 2^53 on it is a whole number, with each of its digits: 10^23 is
/// `99999999999999991611392`. An infinite float is `inf` or `-inf`. An error means that an allocation failed.
#[inline]
pub(crate) fn float_text(alloc: Global, x: &BigFraction) -> Result<Vec<u8>, AllocError> {
    let float = x.to_f64(alloc)?;
    match BigFraction::from_f64(alloc, float)? {
        Some(value) => finite_text(alloc, float, &value),
        None => infinite_text(alloc, float),
    }
}

// The text of a float with this exact value.
#[inline]
fn finite_text(alloc: Global, float: f64, value: &BigFraction) -> Result<Vec<u8>, AllocError> {
    let places = fewest_places(alloc, float, value)?;
    let text = value.decimal(alloc, places, Rounding::HalfEven)?;
    Ok(text.into_bytes())
}

// The text of an infinite float.
#[inline]
fn infinite_text(alloc: Global, float: f64) -> Result<Vec<u8>, AllocError> {
    if float.is_sign_negative() {
        Vec::from_slice(alloc, b"-inf")
    } else {
        Vec::from_slice(alloc, b"inf")
    }
}

// The fewest places with which a float reads back. Each number is tried in turn: 2^-645 reads back with 209 places, and not with 210.
#[inline]
fn fewest_places(alloc: Global, float: f64, value: &BigFraction) -> Result<u32, AllocError> {
    for places in 0..MOST_PLACES {
        if reads_back(alloc, float, value, places)? {
            return Ok(places);
        }
    }
    Ok(MOST_PLACES)
}

// Whether a float reads back from its value with so many places.
#[inline]
fn reads_back(
    alloc: Global,
    float: f64,
    value: &BigFraction,
    places: u32,
) -> Result<bool, AllocError> {
    let step = last_place(alloc, places)?;
    let rounded = value.round_to_multiple_of(alloc, &step, Rounding::HalfEven)?;
    let nearest = rounded.to_f64(alloc)?;
    Ok(nearest == float)
}

// What 1 at the last of so many places is worth: 1/1000 for three.
#[inline]
fn last_place(alloc: Global, places: u32) -> Result<BigFraction, AllocError> {
    Ok(
        BigFraction::from_integer(10)
            .pow(alloc, -i64::from(places))?
            .unwrap(),
    )
}
