// Erased from crates/ratio_decimal/src/float/rationalize.rt by rust/erase: not to be edited.
//! The simplest fraction that rounds to a float, from the float's parts and the gap around it.

use crate::proved::ratio_decimal::float::exact::scaled_by_powers;
use crate::proved::ratio_decimal::float::format::FloatType;
use crate::proved::ratio_decimal::float::gap::simplest_inside;
use crate::proved::ratio_integer::Primitive;

/// The simplest fraction that rounds to the float: 1/10 for 0.1, and 1/3 for 0.3333333333333333. A whole float
/// gives itself. For any other one it is the simplest fraction strictly between the two points that are halfway
/// to its neighbours. It is in lowest terms. Both 0.0 and -0.0 give 0/1. The call returns `None` exactly if the float is infinite or no
/// number, or if that fraction does not fit the type.
#[inline]
pub fn rationalize<T: Primitive>(x: f64) -> Option<(T, T)> {
    rationalized::<T, f64>(x)
}

/// The simplest fraction that rounds to a float of 32 bits, whose neighbours are further away: 1/3 for 0.33333334.
#[inline]
pub fn rationalize32<T: Primitive>(x: f32) -> Option<(T, T)> {
    rationalized::<T, f32>(x)
}

#[inline]
fn rationalized<T: Primitive, F: FloatType>(x: F) -> Option<(T, T)> {
    if x.is_no_number() {
        return None;
    }
    let bits = x.bits();
    let is_negative = F::SIGN <= bits;
    let size = bits % F::SIGN;
    if F::INFINITY <= size {
        return None;
    }
    let (digits, place) = parts::<F>(size);
    if is_whole::<F>(digits, place) {
        return scaled_by_powers(is_negative, digits, place, F::LEAST);
    }
    let (low, high) = gap::<F>(digits, place);
    simplest_inside(is_negative, low, high, F::LEAST - place + 2)
}

// The digits of a finite float with these bits, and their place: the float is the digits times 2^place times the
// least float above 0.
#[inline]
fn parts<F: FloatType>(size: u64) -> (u64, u64) {
    let leading = 1 << (F::DIGITS - 1);
    if size < leading {
        (size, 0)
    } else {
        (leading + size % leading, size / leading - 1)
    }
}

// Whether the float of these digits is a whole number.
#[inline]
fn is_whole<F: FloatType>(digits: u64, place: u64) -> bool {
    digits == 0 || F::LEAST <= place + digits.trailing_zeros() as u64
}

// The ends of the gap around the float of these digits, in quarters of its last place.
#[inline]
fn gap<F: FloatType>(digits: u64, place: u64) -> (u64, u64) {
    let high = 4 * digits + 2;
    if 0 < place && digits == 1 << (F::DIGITS - 1) {
        (high - 3, high)
    } else {
        (high - 4, high)
    }
}
