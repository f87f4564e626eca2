//! `to_f32` of fractions that an `f64` on the way would round wrongly, by each way to call it.
//!
//! Such a fraction n/d is very near to a tie, which is the middle m/2^k of two neighbours among the `f32`s. Its nearest `f64` is the
//! tie itself, and the tie rounds to the even neighbour. So an `f32` made of the `f64` is wrong if the fraction is on the side of the odd
//! neighbour. No fraction of `i8` or `i16` is so near to a tie.
//!
//! This finds one for each tie: m is any odd number of 25 bits, and d the inverse of m or of -m modulo 2^k, plus a multiple of 2^k. Then
//! n = (m d - 1)/2^k or (m d + 1)/2^k is whole, and n/d differs from the tie by 1/(d 2^k). This rounds to the tie if d is above 2^29. The side
//! is known, so no other arithmetic decides what is right.

mod support;

use bakhsney::{integer::Integer, Ratio, Reduced};
use num_traits::{cast, Signed, ToPrimitive, Unsigned};
use support::Numbers;

/// A fraction near a tie, and the `f32` nearest to it.
struct Row<T> {
    numer: T,
    denom: T,
    single: f32,
}

/// The inverse of an odd number modulo 2^64.
fn inverse(odd: u64) -> u64 {
    (0..6).fold(odd, |inverse, _| inverse.wrapping_mul(2u64.wrapping_sub(odd.wrapping_mul(inverse))))
}

/// A row, if its numbers fit the type.
fn row<T: Integer>(numbers: &mut Numbers) -> Option<Row<T>> {
    let (m, k) = ((1 << 24) | numbers.below(1 << 24) | 1, 1 + numbers.below(32));
    let is_above = numbers.below(2) == 0;
    let residue = if is_above { inverse(m).wrapping_neg() } else { inverse(m) } & ((1 << k) - 1);
    let denom = ((numbers.wide() >> (28 + numbers.below(70))) >> k << k) + u128::from(residue);
    let multiple = u128::from(m) * denom;
    let numer = (if is_above { multiple + 1 } else { multiple - 1 }) >> k;
    let neighbour = m / 2 + u64::from(is_above);
    let single = neighbour as f32 * 2f32.powi(1 - k as i32);
    Some(Row { numer: cast(numer)?, denom: cast(denom)?, single }).filter(|_| denom > 1 << 29)
}

fn compared<T: Integer>(numer: T, denom: T, single: f32) {
    let (x, lowest) = (Ratio::new_raw(numer, denom), Reduced::checked_new(numer, denom).unwrap());
    let singles = [x.to_f32(), ToPrimitive::to_f32(&lowest), Some(lowest.to_f32()), lowest.to_ratio().to_f32()];
    assert_eq!(singles, [Some(single); 4], "{x}");
}

/// Compares rows, until an `f64` on the way was wrong for a hundred of them.
fn rows<T: Integer>(compare: fn(&Row<T>)) {
    let mut numbers = Numbers(6);
    let mut wrong = 0;
    for row in (0..100_000).filter_map(|_| row::<T>(&mut numbers)) {
        compare(&row);
        let double = Ratio::new_raw(row.numer, row.denom).to_f64().unwrap();
        wrong += u32::from(double as f32 != row.single);
        if wrong == 100 {
            return;
        }
    }
    panic!("only {wrong} of the fractions are hard");
}

fn unsigned_rows<T: Integer + Unsigned>() {
    rows::<T>(|row| compared(row.numer, row.denom, row.single));
}

fn signed_rows<T: Integer + Signed>() {
    rows::<T>(|row| {
        compared(row.numer, row.denom, row.single);
        compared(-row.numer, row.denom, -row.single);
    });
}

#[test]
fn fractions_next_to_a_tie() {
    unsigned_rows::<u32>();
    unsigned_rows::<u64>();
    unsigned_rows::<u128>();
    unsigned_rows::<usize>();
    signed_rows::<i32>();
    signed_rows::<i64>();
    signed_rows::<i128>();
    signed_rows::<isize>();
}
