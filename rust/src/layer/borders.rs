//! Tests: what the layer computes by itself, beside proved calls or whole numbers of any size. The numbers are drawn near the borders of this
//! code: 0, the powers of 2, and the ends of the types.
#[path = "../../tests/support/mod.rs"]
mod support;

use super::numbers::{magnitude, of_wide, signed, Numbers as Terms};
use super::room_sum::{bytes_for_decimal, digits_for_decimal, digits_of_room, digits_with_spare, RoomSum, FEWEST_DIGITS};
use super::schoolbook;
use crate::proved::ratio_slots::{AddRefusal, Joined, WideFraction, MOST_DIGITS};
use crate::{BigFraction, Ratio, Reduced, Rounding};
use core::cmp::Ordering;
use core::hash::{Hash, Hasher};
use num_traits::{CheckedAdd, CheckedDiv, CheckedEuclid, CheckedMul, CheckedSub, FromPrimitive, Inv, Pow, Signed, ToPrimitive, Zero};
use original::BigRational;
use std::vec;
use std::vec::Vec;
use support::Numbers;

/// How many times each test draws. `rust/faults` draws more often, and `rust/test --long` a million times.
#[cfg(feature = "std")]
fn draws() -> u64 {
    std::env::var("BAKHSNEY_DRAWS").map_or(20_000, |draws| draws.parse().unwrap())
}

#[cfg(not(feature = "std"))]
fn draws() -> u64 {
    20_000
}

/// A number of 128 bits: often a power of 2 or a neighbour of one, or near the end.
fn size(numbers: &mut Numbers) -> u128 {
    match numbers.below(8) {
        0 => u128::MAX - u128::from(numbers.below(3)),
        1 => numbers.below(3).into(),
        _ => numbers.of_any_length(),
    }
}

fn big(number: u128) -> BigRational {
    BigRational::from_u128(number).unwrap()
}

fn whole(digits: &[u64]) -> BigRational {
    digits.iter().rev().fold(big(0), |high, &low| high * big(1 << 64) + big(low.into()))
}

fn with_sign(is_negative: bool, size: BigRational) -> BigRational {
    if is_negative { -size } else { size }
}

// ---- rooms

/// One digit or byte less than each room has is refused by the proved call.
#[test]
fn rooms_are_as_long_as_proved_calls_require() {
    for digits in (2..40).chain([1000, MOST_DIGITS - 1, MOST_DIGITS]) {
        let length = digits_of_room(digits);
        let mut memory = vec![0; digits_with_spare(digits)];
        assert_eq!(Joined::zero(digits, &mut memory[..length - 1]), None);
        let (room, spare) = memory.split_at_mut(length);
        let (zero, mut third) = (Joined::zero(digits, room).unwrap(), [0; 14]);
        let one = Joined::of(false, 1, 3, &mut third).unwrap();
        let less = spare.len() - 1;
        assert_eq!(zero.merge(room, one, &third, &mut spare[..less]), Err(AddRefusal::MoreRoom));
        let sum = zero.merge(room, one, &third, spare).unwrap();
        for places in [0, 1, 18, 19, 20, 37, 38, 1000] {
            let (mut room, mut bytes) = (vec![0; digits_for_decimal(digits, places)], vec![0; bytes_for_decimal(digits, places)]);
            let copied = room.len().min(length);
            let mut put = |room_less: usize, bytes_less: usize| {
                room[..copied].copy_from_slice(&memory[..copied]);
                let (room_end, bytes_end) = (room.len() - room_less, bytes.len() - bytes_less);
                sum.put_decimal(places, Rounding::Up, &mut room[..room_end], &mut bytes[..bytes_end]).is_ok()
            };
            assert_eq!([put(1, 0), put(0, 1), put(0, 0)], [false, false, true], "{digits} digits, {places} places");
        }
    }
}

fn value(sum: &RoomSum) -> BigRational {
    let [positive, common, negative] = sum.numbers().unwrap();
    (whole(positive) - whole(negative)) / whole(common)
}

/// A sum over few digits, or one whose common denominator has no digit to spare.
fn begun(numbers: &mut Numbers) -> (RoomSum, BigRational) {
    if numbers.below(2) == 0 {
        return (RoomSum::EMPTY, big(0));
    }
    let sum = RoomSum::with_digits(2 + numbers.below(5) as usize);
    let exact = value(&sum);
    (sum, exact)
}

#[test]
fn a_sum_that_grows_has_the_exact_value() {
    let mut numbers = Numbers(7);
    let mut fitting = 0;
    for _ in 0..draws() / 500 {
        let (mut sum, mut exact) = begun(&mut numbers);
        let bits = 1 + numbers.below(128) as u32;
        for _ in 0..1 + numbers.below(6) {
            let terms = [size(&mut numbers), size(&mut numbers).max(1)];
            let (negative, out) = (numbers.below(2) == 0, numbers.below(2) == 0);
            let [numer, denom] = [terms[0], if numbers.below(2) == 0 { 1 } else { (terms[1] >> (128 - bits)).max(1) }];
            let fraction = with_sign(negative != out, big(numer) / big(denom));
            if numbers.below(2) == 0 {
                sum.put(WideFraction { negative, numer, denom }, out);
            } else {
                let (mut other, more) = begun(&mut numbers);
                other.put(WideFraction { negative, numer, denom }, false);
                sum.put_all(&other, out);
                exact += with_sign(out, more);
            }
            exact += fraction;
        }
        assert_eq!(value(&sum), exact);
        let terms = exact.numer().abs().to_u128().zip(exact.denom().to_u128());
        let wide = terms.map(|(numer, denom)| WideFraction { negative: exact.is_negative(), numer, denom });
        fitting += u64::from(wide.is_some());
        let digits = sum.fractions();
        assert_eq!(sum.read(Joined::wide_sum), Ok(wide), "a sum of {digits} fractions, {exact}");
    }
    assert!(fitting > draws() / 5000);
}

/// From each length to one that has room for both. A room has the same sum afterwards.
#[test]
fn each_length_grows_to_the_most_digits() {
    for digits in [1, 2, FEWEST_DIGITS, 100, MOST_DIGITS / 2, MOST_DIGITS / 2 + 1, MOST_DIGITS - 1] {
        for more in [1, digits, 2 * digits, MOST_DIGITS] {
            let mut sum = RoomSum::with_digits(digits);
            let before = sum.numbers().unwrap().map(<[u64]>::to_vec);
            sum.grow(more);
            let after = sum.numbers().unwrap().map(<[u64]>::to_vec);
            assert_eq!(after[1].len(), (digits + digits.max(more)).clamp(FEWEST_DIGITS, MOST_DIGITS), "{digits} and {more}");
            for (before, after) in before.iter().zip(&after) {
                assert!(after[..before.len()] == before[..] && after[before.len()..].iter().all(|&digit| digit == 0));
            }
        }
    }
    let mut longest = RoomSum::with_digits(MOST_DIGITS);
    assert!(longest.numbers().is_ok());
    longest.grow(1);
    assert!(longest.numbers().is_err());
}

// ---- the numbers of a fraction

#[test]
fn numbers_without_and_with_a_sign() {
    let mut numbers = Numbers(11);
    for _ in 0..draws() {
        let (negative, size) = (numbers.below(2) == 0, size(&mut numbers));
        let exact = with_sign(negative, big(size));
        assert_eq!(signed(negative, size), exact.to_i128(), "{negative} {size}");
        assert_eq!(signed(negative, size), exact.to_u128());
        assert_eq!(signed(negative, size), exact.to_i64());
        assert_eq!(signed(negative, size), exact.to_u64());
        let number = size as i128;
        assert_eq!((magnitude(size), magnitude(number)), (size, number.unsigned_abs()));
    }
}

fn terms_value(terms: Terms) -> BigRational {
    match terms {
        Terms::Short(numer, denom) => {
            assert!(numer.unsigned_abs() >> 64 == 0);
            BigRational::from_i128(numer).unwrap() / big(denom.into())
        }
        Terms::Wide(WideFraction { negative, numer, denom }) => {
            assert!(numer >> 64 != 0 || denom >> 64 != 0);
            with_sign(negative, big(numer) / big(denom))
        }
    }
}

/// Fractions of 128 bits and their products, which need not fit the type.
#[test]
fn terms_of_fractions_and_products() {
    let mut numbers = Numbers(13);
    let mut products = [0; 2];
    for _ in 0..draws() / 2 {
        let mut fraction = |bits: u64| -> Option<Reduced<i128>> {
            let [numer, denom] = [size(&mut numbers) >> bits, size(&mut numbers) >> bits];
            Reduced::checked_new(signed(numbers.below(2) == 0, numer)?, signed(false, denom)?)
        };
        let (left, right) = match (fraction(0), fraction(64)) {
            (Some(left), Some(right)) => (left, right),
            _ => continue,
        };
        let exact = |x: Reduced<i128>| BigRational::from_i128(*x.numer()).unwrap() / BigRational::from_i128(*x.denom()).unwrap();
        assert_eq!(terms_value(Terms::of(left)), exact(left));
        let product = exact(left) * exact(right);
        let fits = product.numer().abs().to_u128().is_some() && product.denom().to_u128().is_some();
        assert_eq!(Terms::of_product(left, right).map(terms_value), if fits { Some(product.clone()) } else { None }, "{left} {right}");
        products[usize::from(fits)] += 1;
        if let Some(Terms::Wide(wide)) = Terms::of_product(left, right) {
            let terms = product.numer().to_i128().zip(product.denom().to_i128());
            assert_eq!(of_wide(wide).map(Reduced::into_raw), terms);
        }
        let back = Reduced::<i128>::try_from(BigFraction::from(left));
        assert_eq!(back, Ok(left));
    }
    assert!(products.iter().all(|&count| count > draws() / 100), "{products:?}");
}

// ---- the rules of school

/// A number of up to 63 bits with a sign, so that no step over `i128` overflows.
fn short(numbers: &mut Numbers) -> i128 {
    let shift = numbers.below(64);
    let size = match numbers.below(5) {
        0 => 1 << shift,
        1 => (1 << shift) - 1,
        2 => i128::from(numbers.below(5)),
        _ => i128::from(numbers.word() >> 1 >> shift),
    };
    if numbers.below(2) == 0 { size } else { -size }
}

fn fraction(numbers: &mut Numbers) -> Ratio<i128> {
    let denom = short(numbers);
    Ratio::new_raw(short(numbers), if denom == 0 { 1 } else { denom })
}

/// Two fractions, which often share a number or are equal.
fn pair(numbers: &mut Numbers) -> (Ratio<i128>, Ratio<i128>) {
    let (x, y) = (fraction(numbers), fraction(numbers));
    let y = match numbers.below(8) {
        0 => x,
        1 => -x,
        2 => Ratio::new_raw(*y.numer(), *x.denom()),
        3 => Ratio::new_raw(*x.numer(), *y.denom()),
        4 => Ratio::new_raw(-*x.numer(), *y.denom()),
        _ => y,
    };
    (x, y)
}

/// The distance of two fractions and the middle between them, where a sum or a difference need not fit, and Euclid's division.
#[test]
fn distances_middles_and_euclid() {
    let mut numbers = Numbers(23);
    for _ in 0..draws() / 2 {
        let mut next = || {
            let [numer, denom] = [(); 2].map(|_| size(&mut numbers) >> (64 + numbers.below(3)));
            (signed::<i64>(numbers.below(2) == 0, numer), signed(false, denom))
        };
        let fraction = |(numer, denom): (Option<i64>, Option<i64>)| Ratio::checked_new(numer?, denom?);
        if let (Some(x), Some(y)) = (fraction(next()), fraction(next())) {
            let exact = |x: Ratio<i64>| BigRational::new((*x.numer()).into(), (*x.denom()).into());
            let fitting = |x: BigRational| x.numer().to_i64().zip(x.denom().to_i64());
            assert_eq!(x.checked_abs_diff(&y).map(Ratio::into_raw), fitting((exact(x) - exact(y)).abs()), "{x} {y}");
            assert_eq!(x.checked_midpoint(&y).map(Ratio::into_raw), fitting((exact(x) + exact(y)) / big(2)), "{x} {y}");
            if !y.is_zero() {
                let quotient = exact(x) / exact(y);
                let whole = if y.is_negative() { quotient.ceil() } else { quotient.floor() };
                let rest = exact(x) - whole.clone() * exact(y);
                assert_eq!(x.checked_div_euclid(&y).map(Ratio::into_raw), fitting(whole), "{x} {y}");
                if let Some(found) = x.checked_rem_euclid(&y) {
                    assert_eq!(exact(found), rest, "{x} {y}");
                }
            }
        }
    }
}

/// What a hash is of.
#[derive(Default)]
struct Written(Vec<u8>);

impl Hasher for Written {
    fn finish(&self) -> u64 {
        0
    }

    fn write(&mut self, bytes: &[u8]) {
        self.0.extend_from_slice(bytes);
    }
}

type Fields = Option<(i128, i128)>;

fn fields(x: Option<Ratio<i128>>) -> Fields {
    x.map(Ratio::into_raw)
}

#[test]
fn schoolbook_is_as_the_proved_calls_are() {
    let mut numbers = Numbers(17);
    for _ in 0..draws() {
        let (x, y) = pair(&mut numbers);
        let said = || std::format!("{}/{} {}/{}", x.numer(), x.denom(), y.numer(), y.denom());
        assert_eq!(fields(schoolbook::checked_add(&x, &y)), fields(x.checked_add(&y)), "{}", said());
        assert_eq!(fields(schoolbook::checked_sub(&x, &y)), fields(x.checked_sub(&y)), "{}", said());
        assert_eq!(fields(schoolbook::checked_mul(&x, &y)), fields(x.checked_mul(&y)), "{}", said());
        assert_eq!(fields(schoolbook::checked_div(&x, &y)), fields(x.checked_div(&y)), "{}", said());
        let sums = [schoolbook::add(x, y), schoolbook::sub(x, y), schoolbook::mul(x, y)].map(Ratio::into_raw);
        assert_eq!(sums, [x + y, x - y, x * y].map(Ratio::into_raw), "{}", said());
        if !y.is_zero() {
            let divided = [schoolbook::div(x, y), schoolbook::rem(x, y)].map(Ratio::into_raw);
            assert_eq!(divided, [x / y, x % y].map(Ratio::into_raw), "{}", said());
        }
        assert_eq!(schoolbook::cmp(&x, &y), x.cmp(&y), "{}", said());
        assert_eq!(schoolbook::cmp(&x, &x), Ordering::Equal);
        assert_eq!(schoolbook::new(*x.numer(), *x.denom()).into_raw(), x.reduced().into_raw());
    }
}

#[test]
fn schoolbook_of_one_fraction_is_as_the_proved_calls_are() {
    let mut numbers = Numbers(19);
    for _ in 0..draws() {
        let x = fraction(&mut numbers);
        let near = [schoolbook::floor(&x), schoolbook::ceil(&x), schoolbook::round(&x), schoolbook::trunc(&x)];
        assert_eq!(near.map(Ratio::from_integer), [x.floor(), x.ceil(), x.round(), x.trunc()], "{x:?}");
        assert_eq!([schoolbook::fract(&x), schoolbook::abs(&x), schoolbook::signum(&x)], [x.fract(), x.abs(), x.signum()], "{x:?}");
        assert_eq!((schoolbook::is_negative(&x), schoolbook::is_positive(&x)), (x.is_negative(), x.is_positive()), "{x:?}");
        if !x.is_zero() {
            assert_eq!(schoolbook::recip(x.reduced()).into_raw(), x.inv().reduced().into_raw(), "{x:?}");
        }
        let (mut theirs, mut ours) = (Written::default(), Written::default());
        x.hash(&mut theirs);
        schoolbook::hash(&x, &mut ours);
        assert_eq!(ours.0, theirs.0, "{x:?}");
        let (small, exponent) = (Ratio::new(x.numer() % 5, 1 + x.denom() % 3 * (x.denom() % 3)), numbers.below(40) as i32 - 20);
        if !small.is_zero() {
            let power = schoolbook::power(&small, exponent < 0, exponent.unsigned_abs().into());
            assert_eq!(power, Pow::pow(small, exponent), "{small:?}^{exponent}");
        }
    }
}
