//! `to_f64` and `to_f32` of random pairs of fields, and `from_float` of what they return, beside num-rational and beside big
//! integers. An optimized run draws ten million pairs, and a debug build some thousand.
//!
//! num-rational's `to_f64` must return the same bits for each pair. Where both fields have at most 53 bits, it divides two floats, as
//! this crate does; above, it divides big integers. Its `to_f32` rounds that float once more. So it must return the same bits except
//! where this float is a tie of two `f32`s. There only the big integers decide.

mod support;

use bakhsney::{Ratio, Reduced};
use num_traits::{FromPrimitive, PrimInt, ToPrimitive};
use original::BigRational;
use std::cmp::Ordering;
use support::Numbers;

/// The number of pairs of each of the ten types.
const PAIRS: usize = if cfg!(debug_assertions) { 1_000 } else { 1_000_000 };

/// The digits of an `f32` and of an `f64`.
const DIGITS: [u32; 2] = [24, 53];

/// A numerator and a denominator: any two numbers, or two whose quotient is a tie of two floats or next to one, with a sign each.
fn pair<T: PrimInt>(numbers: &mut Numbers) -> (T, T) {
    let bits = T::max_value().count_ones();
    let digits = DIGITS[numbers.below(2) as usize];
    let (numer, denom) = if numbers.below(2) == 0 && digits + 2 <= bits {
        let room = bits - digits - 1;
        let tie = numbers.wide() >> (128 - digits) << 1 | 1;
        let denom = 1 + (numbers.wide() >> (128 - room) >> numbers.below(room.into()));
        let numer = tie * denom + u128::from(numbers.below(3)) - 1;
        (numer, denom << numbers.below(u64::from(denom.leading_zeros() + bits - 127)))
    } else {
        let mut any = || numbers.of_any_length() >> numbers.below(u64::from(129 - bits));
        (any(), any())
    };
    (signed(numer, numbers), signed(denom, numbers))
}

/// The low digits of the number, with a sign if the type has one. About one of 64 numbers is the type's least.
fn signed<T: PrimInt>(size: u128, numbers: &mut Numbers) -> T {
    let number = T::from(size & T::max_value().to_u128().unwrap()).unwrap();
    match numbers.below(64) {
        0 => T::min_value(),
        n if n % 2 == 0 && T::min_value() < T::zero() => T::zero() - number,
        _ => number,
    }
}

fn is_below_zero<T: PrimInt>(number: T) -> bool {
    number < T::zero()
}

/// The order of `numer/denom` and `digits` times 2^`power`, by big integers.
fn order(numer: u128, denom: u128, digits: u64, power: i32) -> Ordering {
    let whole = |number| BigRational::from_u128(number).unwrap().numer().clone();
    let (left, right) = (whole(numer), whole(denom) * digits);
    if power < 0 {
        (left << -power).cmp(&right)
    } else {
        left.cmp(&(right << power))
    }
}

/// A type of floats: the digits of its numbers, and the power of two that its least number above 0 is.
struct Floats {
    digits: u32,
    least: i32,
}

const SINGLE: Floats = Floats { digits: 24, least: -149 };
const DOUBLE: Floats = Floats { digits: 53, least: -1074 };

impl Floats {
    /// The order of the fraction and the middle between the float with these bits and the next one. Infinity counts as the next power
    /// of two.
    fn beside_middle(&self, numer: u128, denom: u128, bits: u64) -> Ordering {
        let field = bits >> (self.digits - 1);
        let below = bits & ((1 << (self.digits - 1)) - 1);
        let (digits, power) = if field == 0 { (below, 0) } else { (below | 1 << (self.digits - 1), field as i32 - 1) };
        order(numer, denom, 2 * digits + 1, power + self.least - 1)
    }

    /// Whether the float with these bits is the nearest one, and at a tie the one whose last bit is 0.
    fn is_nearest(&self, numer: u128, denom: u128, bits: u64) -> bool {
        let is_even = bits % 2 == 0;
        let is_infinite = bits >> (self.digits - 1) == if self.digits == 24 { 0xff } else { 0x7ff };
        let reaches = |order: Ordering, wanted| order == wanted || order == Ordering::Equal && is_even;
        (bits == 0 || reaches(self.beside_middle(numer, denom, bits - 1), Ordering::Greater))
            && (is_infinite || reaches(self.beside_middle(numer, denom, bits), Ordering::Less))
    }
}

/// Whether the float is in the middle between two `f32`s. After the greatest comes 2^128.
fn is_tie(double: f64) -> bool {
    let value = |bits: u32| if bits == f32::INFINITY.to_bits() { 2f64.powi(128) } else { f32::from_bits(bits).into() };
    let place = (double.abs() as f32).to_bits();
    [place.saturating_sub(1), place].iter().any(|&low| (value(low) + value(low + 1)) / 2.0 == double.abs())
}

/// The two fields of the float, as numerator and denominator, by big integers.
fn exact<T: PrimInt>(float: f64) -> Option<(T, T)> {
    let fraction = BigRational::from_float(float)?;
    let number = |x: Option<i128>, y: Option<u128>| x.and_then(T::from).or_else(|| T::from(y?));
    let (numer, denom) = (fraction.numer(), fraction.denom());
    Some((number(numer.to_i128(), numer.to_u128())?, number(denom.to_i128(), denom.to_u128())?))
}

macro_rules! sweeps {
    ($($name:ident $T:ident $magnitude:expr;)*) => {$(
        #[test]
        fn $name() {
            let mut numbers = Numbers(6);
            let mut rounded_twice = 0;
            for _ in 0..PAIRS {
                let (numer, denom) = pair::<$T>(&mut numbers);
                let (ours, theirs) = (Ratio::new_raw(numer, denom), original::Ratio::new_raw(numer, denom));
                let floats = (ours.to_f64(), ours.to_f32());
                // An x86 without SSE2 rounds num-rational's quotient twice.
                if cfg!(any(not(target_arch = "x86"), target_feature = "sse2")) {
                    assert_eq!(floats.0.map(f64::to_bits), theirs.to_f64().map(f64::to_bits), "{numer}/{denom}");
                    if floats.1.map(f32::to_bits) != theirs.to_f32().map(f32::to_bits) {
                        assert!(is_tie(floats.0.unwrap()), "{numer}/{denom}");
                        rounded_twice += 1;
                    }
                }
                if denom == 0 {
                    assert_eq!(floats.0.map(f64::abs), if numer == 0 { None } else { Some(f64::INFINITY) }, "{numer}/0");
                    continue;
                }
                let (double, single) = (floats.0.unwrap(), floats.1.unwrap());
                let is_below = is_below_zero(numer) != is_below_zero(denom);
                assert_eq!((double.is_sign_negative(), single.is_sign_negative()), (is_below, is_below), "{numer}/{denom}");
                let (n, d): (u128, u128) = ($magnitude(numer).into(), $magnitude(denom).into());
                assert!(DOUBLE.is_nearest(n, d, double.abs().to_bits()), "{numer}/{denom} is not {double:e}");
                assert!(SINGLE.is_nearest(n, d, single.abs().to_bits().into()), "{numer}/{denom} is not {single:e}");
                if let Some(lowest) = Reduced::checked_new(numer, denom) {
                    assert_eq!((lowest.to_f64(), lowest.to_f32()), (double, single), "{numer}/{denom}, reduced");
                }
                let back = (Reduced::<$T>::from_float(double), Reduced::<$T>::from_float32(single));
                assert_eq!(back.0.map(Reduced::into_raw), exact(double), "{double:e}");
                assert_eq!(back.1.map(Reduced::into_raw), exact(single.into()), "{single:e}");
                assert!(back.0.map_or(true, |x| x.to_f64() == double) && back.1.map_or(true, |x| x.to_f32() == single), "{double:e} and {single:e}");
            }
            assert!(rounded_twice > 0 || $T::BITS <= 32);
        }
    )*};
}

sweeps! {
    pairs_of_i8 i8 i8::unsigned_abs; pairs_of_i16 i16 i16::unsigned_abs; pairs_of_i32 i32 i32::unsigned_abs;
    pairs_of_i64 i64 i64::unsigned_abs; pairs_of_i128 i128 i128::unsigned_abs;
    pairs_of_u8 u8 u8::from; pairs_of_u16 u16 u16::from; pairs_of_u32 u32 u32::from; pairs_of_u64 u64 u64::from; pairs_of_u128 u128 u128::from;
}
