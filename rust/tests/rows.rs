//! Rows of the calls, as a Rust program writes them.

// The tests are about these forms.
#![allow(clippy::op_ref, clippy::modulo_one, clippy::needless_borrows_for_generic_args)]

use bakhsney::{BaseTenText, integer::Integer, ParseRatioError, Ratio, Rational64};
use num_traits::{CheckedAdd, CheckedDiv, CheckedMul, CheckedRem, CheckedSub, FromPrimitive, Inv, Num, One, Signed, ToPrimitive, Zero};
use std::cmp::Ordering;
use std::collections::hash_map::DefaultHasher;
use std::collections::{BTreeSet, HashMap};
use std::hash::{Hash, Hasher};

fn half() -> Ratio<i32> {
    Ratio::new(1, 2)
}

#[test]
fn operators_in_all_forms() {
    let (x, y) = (half(), Ratio::new(1, 3));
    let sum = Ratio::new(5, 6);
    assert_eq!([x + y, x + &y, &x + y, &x + &y], [sum; 4]);
    assert_eq!([x + 1, x + &1, &x + 1, &x + &1], [Ratio::new(3, 2); 4]);
    assert_eq!([x - y, x * y, x / y, x % y], [(1, 6), (1, 6), (3, 2), (1, 6)].map(Ratio::from));
    assert_eq!([x - 1, x * 3, x / 3, x % 1], [(-1, 2), (3, 2), (1, 6), (1, 2)].map(Ratio::from));
}

#[test]
fn assigning_forms() {
    let mut x = half();
    x += Ratio::new(1, 3);
    x += &Ratio::new(1, 6);
    x += 1;
    x += &1;
    assert_eq!(x, Ratio::from_integer(3));
    x -= half();
    x *= &Ratio::new(2, 5);
    x /= 2;
    assert_eq!(x, half());
    x %= Ratio::new(1, 3);
    assert_eq!(x, Ratio::new(1, 6));
}

#[test]
fn std_calls_are_not_shadowed() {
    use std::ops::Add;
    assert_eq!(half().add(&half()), Ratio::from_integer(1));
    assert_eq!(half().add(1), Ratio::new(3, 2));
}

type Checked = fn(&Ratio<i8>, &Ratio<i8>) -> Option<Ratio<i8>>;

#[test]
fn either_sign_of_a_denominator() {
    assert!(Ratio::<i8>::new_raw(-128, -1) >= Ratio::from_integer(127));
    assert_eq!(Ratio::<i8>::new_raw(1, -2).cmp(&Ratio::new_raw(1, 2)), Ordering::Less);
    let product = Ratio::<i8>::new_raw(1, -2) * Ratio::new(1, 2);
    assert_eq!(product.into_raw(), (-1, 4));
    let (refused, one) = (Ratio::new_raw(1i8, -128), Ratio::one());
    let calls: [Checked; 5] = [CheckedAdd::checked_add, CheckedSub::checked_sub, CheckedMul::checked_mul, CheckedDiv::checked_div, CheckedRem::checked_rem];
    assert_eq!(calls.map(|call| call(&refused, &one).or(call(&one, &refused))), [None; 5]);
    assert_eq!([(2, -4), (-2, 4)].map(|(n, d)| Ratio::new_raw(n, d).reduced().into_raw()), [(-1, 2); 2]);
}

#[test]
fn comparisons_by_each_symbol() {
    let (third, same) = (Ratio::new(1, 3), Ratio::new_raw(-2, -4));
    let rows = [
        (third, half(), [true, true, false, false, false, true]),
        (half(), same, [false, true, false, true, true, false]),
        (half(), third, [false, false, true, true, false, true]),
    ];
    for (x, y, want) in rows {
        assert_eq!([x < y, x <= y, x > y, x >= y, x == y, x != y], want, "{x} and {y}");
    }
}

#[test]
fn checked_calls() {
    let greatest = Ratio::from_integer(u8::MAX);
    assert_eq!(greatest.checked_add(&Ratio::one()), None);
    assert_eq!(Ratio::zero().checked_sub(&greatest), None);
    assert_eq!(greatest.checked_mul(&Ratio::new(2, 255)), Some(Ratio::from_integer(2)));
    assert_eq!(greatest.checked_div(&Ratio::zero()), None);
    assert_eq!(greatest.checked_rem(&Ratio::new(2, 3)), None);
    assert_eq!(Ratio::new(7u8, 2).checked_rem(&Ratio::one()), Some(Ratio::new(1, 2)));
}

#[test]
fn texts() {
    assert_eq!("1/2".parse::<Ratio<i8>>(), Ok(Ratio::new(1, 2)));
    assert_eq!("-6/8".parse::<Ratio<i8>>().map(Ratio::into_raw), Ok((-3, 4)));
    assert_eq!("-7".parse::<Ratio<i8>>(), Ok(Ratio::from_integer(-7)));
    let refused: Vec<Result<Ratio<i8>, ParseRatioError>> = ["1/0", "128", "1/2/3", ""].map(str::parse).to_vec();
    assert!(refused.iter().all(Result::is_err));
    assert_eq!(half().to_string(), "1/2");
    assert_eq!(format!("{:>6}|{:<6}|{:+}", half(), half(), half()), "   1/2|1/2   |+1/2");
    assert_eq!(format!("{:?}", half()), "Ratio { numer: 1, denom: 2 }");
    let boxed: Box<dyn std::error::Error> = Box::new("x".parse::<Ratio<i8>>().unwrap_err());
    assert_eq!(boxed.to_string(), "failed to parse integer");
}

#[test]
fn conversions() {
    assert_eq!(Ratio::<u8>::from_i64(300), None);
    assert_eq!(Ratio::<u8>::from_u128(200), Some(Ratio::from_integer(200)));
    assert_eq!((Ratio::<u8>::from_f64(0.5), Ratio::<u8>::from_f32(-0.5)), (Some(Ratio::new(1, 2)), None));
    assert_eq!(<(i32, i32)>::from(Ratio::new_raw(2, 4)), (2, 4));
    assert_eq!(Ratio::from((2, 4)), half());
    assert_eq!(Ratio::from(3), Ratio::from_integer(3));
    assert_eq!(Ratio::<i64>::default(), Ratio::zero());
}

#[test]
fn whole_numbers() {
    let rounded = |n: i8, d| {
        let x = Ratio::new(n, d);
        [x.floor(), x.ceil(), x.round(), x.trunc()].map(|y| y.to_integer())
    };
    assert_eq!(rounded(-127, 2), [-64, -63, -64, -63]);
    assert_eq!(rounded(127, 2), [63, 64, 64, 63]);
    assert_eq!(rounded(2, -3), [-1, 0, -1, 0]);
    assert_eq!(Ratio::new(-127i8, 2).fract().into_raw(), (-1, 2));
    assert_eq!(Ratio::new_raw(4, -3).floor(), Ratio::from_integer(-2));
    let x = Ratio::new(-31i64, 8);
    assert_eq!((x.to_i64(), x.to_u64(), x.to_i8(), x.to_u128()), (Some(-3), None, Some(-3), None));
    assert_eq!(Ratio::new(-1i64, 2).to_u64(), Some(0));
    assert_eq!(Ratio::new(1u128 << 77, 1 << 7).to_i128(), Some(1 << 70));
    assert_eq!((x.to_f32(), x.to_f64()), (Some(-3.875), Some(-3.875)));
}

#[test]
fn negatives() {
    assert_eq!((-half()).into_raw(), (-1, 2));
    assert_eq!((-&Ratio::new_raw(1i64, -2)).into_raw(), (-1, -2));
    assert_eq!(-Ratio::from_integer(i8::MAX), Ratio::from_integer(-127));
}

#[test]
fn constants() {
    const HALF: Ratio<i32> = Ratio::new_raw(1, 2);
    const NUMER: &i32 = HALF.numer();
    assert_eq!((*NUMER, *HALF.denom()), (1, 2));
    assert_eq!((Rational64::ZERO, Rational64::ONE), (Ratio::zero(), Ratio::one()));
    assert!(Rational64::ONE.is_one() && Rational64::ZERO.is_zero() && Rational64::ONE.is_integer());
}

#[test]
fn keys_and_folds() {
    let mut hashed = HashMap::new();
    hashed.insert(Rational64::new_raw(4, -6), "found");
    assert_eq!(hashed.get(&Ratio::new(-2, 3)), Some(&"found"));
    assert_eq!([(1, 2), (1, 3), (3, 2), (2, 3)].map(|pair| hash_of(Ratio::from(pair))).into_iter().collect::<BTreeSet<_>>().len(), 4);
    let ordered: BTreeSet<Ratio<u8>> = [(3, 4), (1, 2), (2, 4), (255, 254)].into_iter().map(Ratio::from).collect();
    assert_eq!(ordered.into_iter().map(Ratio::into_raw).collect::<Vec<_>>(), [(1, 2), (3, 4), (255, 254)]);
    let items = [Ratio::new(1i64, 2), Ratio::new(1, 3), Ratio::new(1, 6)];
    assert_eq!(items.iter().sum::<Ratio<i64>>(), Ratio::one());
    assert_eq!(items.into_iter().sum::<Ratio<i64>>(), Ratio::one());
    assert_eq!(items.iter().product::<Ratio<i64>>(), Ratio::new(1, 36));
    assert_eq!(items.into_iter().product::<Ratio<i64>>(), Ratio::new(1, 36));
}

fn hash_of(x: Rational64) -> u64 {
    let mut state = DefaultHasher::new();
    x.hash(&mut state);
    state.finish()
}

fn mean<T: Integer>(items: &[Ratio<T>]) -> Ratio<T> {
    let mut count = T::zero();
    for item in items {
        assert!(!T::is_zero(item.denom()));
        count += T::one();
    }
    items.iter().sum::<Ratio<T>>() / count
}

fn turned<T: Integer + std::ops::Neg<Output = T>>(x: Ratio<T>) -> Ratio<T> {
    -x - x
}

#[test]
fn generic_code() {
    assert_eq!(turned(half()), Ratio::from_integer(-1));
    assert_eq!(mean(&[Ratio::new(1u8, 2), Ratio::new(1, 4)]), Ratio::new(3, 8));
    assert_eq!(mean(&[Ratio::new(1i128, 2), Ratio::new(-1, 2)]), Ratio::zero());
}

#[cfg(feature = "serde")]
#[test]
fn serialized() {
    let x = Ratio::new_raw(2, -4);
    let text = serde_json::to_string(&x).unwrap();
    assert_eq!(text, "[2,-4]");
    assert_eq!(serde_json::from_str::<Ratio<i32>>(&text).unwrap().into_raw(), (2, -4));
    assert_eq!(serde_json::from_str::<Ratio<i32>>("[0,-5]").unwrap().into_raw(), (0, -5));
    let refusal = serde_json::from_str::<Ratio<i32>>("[1,0]").unwrap_err().to_string();
    assert!(refusal.contains("invalid value: integer `0`, expected a ratio with non-zero denominator"), "{refusal}");
    assert!(serde_json::from_str::<Ratio<i8>>("[128,1]").is_err());
}

fn pow<B: num_traits::Pow<E, Output = Ratio<i64>>, E>(base: B, exponent: E) -> Ratio<i64> {
    base.pow(exponent)
}

#[test]
fn powers() {
    let x = Ratio::new(3i64, 2);
    assert_eq!((x.pow(3), x.pow(-1), x.pow(0)), (Ratio::new(27, 8), Ratio::new(2, 3), Ratio::one()));
    assert_eq!((x.checked_pow(39).is_some(), x.checked_pow(40)), (true, None));
    assert_eq!(Ratio::new_raw(2i64, 4).pow(2).into_raw(), (4, 16));
    assert_eq!(Ratio::new(1, -2i8).pow(i32::MIN.wrapping_add(i32::MAX)), Ratio::from_integer(-2));
    assert_eq!(Ratio::<i64>::one().pow(i32::MIN), Ratio::one());
    assert_eq!([pow(x, 2u8), pow(x, -2i128).recip(), pow(&x, &2usize), pow(&x, 2i16)], [x * x; 4]);
    assert_eq!([x.recip(), Inv::inv(x), Inv::inv(&x)], [Ratio::new(2, 3); 3]);
    assert_eq!(Ratio::new(-2, 3).recip().into_raw(), (-3, 2));
}

#[test]
fn forms_and_radix() {
    let x = Ratio::new(-1i8, 2);
    assert_eq!(format!("{:#010b}", half()), "0b001/0b10");
    assert_eq!(format!("{x:x}|{x:+x}|{x:#X}|{x:#o}"), "ff/2|+ff/2|0xFF/0x2|0o377/0o2");
    assert_eq!(format!("{:05}|{:*^7}", Ratio::from_integer(-1i8), half()), "-0001|**1/2**");
    let raw = Ratio::new_raw(10i8, -20);
    assert_eq!(format!("{raw} {raw:b} {raw:o} {raw:x} {raw:X}"), "10/-20 1010/11101100 12/354 a/ec A/EC");
    let mut text = BaseTenText::empty();
    raw.put_base_ten_text(&mut text);
    assert_eq!([text.as_str(), raw.base_ten_text().as_str()], ["10/-20"; 2]);
    assert_eq!(Ratio::from_str_radix("101/11", 2), Ok(Ratio::new(5i64, 3)));
    assert_eq!(Ratio::from_str_radix("f/2", 16), Ok(Ratio::new(15i64, 2)));
    assert_eq!(Ratio::from_str_radix("z/Z", 36), Ok(Ratio::from_integer(1u8)));
    assert!(Ratio::<i64>::from_str_radix("5", 10).is_err());
}

#[test]
fn signs() {
    let x = Ratio::new_raw(1i64, -2);
    assert_eq!((x.signum(), x.abs(), x.is_negative()), (-Ratio::<i64>::one(), Ratio::new(1, 2), true));
    assert_eq!(Ratio::new(3i64, 2).abs_sub(&Ratio::new(1, 2)), Ratio::one());
    assert_eq!(Ratio::new(1i64, 2).abs_sub(&Ratio::new(3, 2)), Ratio::zero());
    assert!(Ratio::new_raw(i8::MIN, -1).is_positive());
    assert_eq!(Ratio::new_raw(i8::MIN, -1).signum(), Ratio::one());
}

fn distance<T: Integer + Signed>(x: Ratio<T>, y: Ratio<T>) -> Ratio<T> {
    (x - y).abs()
}

#[test]
fn generic_signs() {
    assert_eq!(distance(Ratio::new(1, 3), half()), Ratio::new(1, 6));
}

#[test]
fn where_num_rational_fails() {
    let whole = Ratio::<i8>::from_integer;
    let raw = Ratio::<i8>::new_raw;
    assert_eq!(whole(1).cmp(&raw(1, -1)), Ordering::Greater);
    assert!(whole(0) < raw(-128, -1) && whole(0) != raw(-128, -1));
    assert_eq!(whole(-1).checked_mul(&raw(-128, 2)), Some(whole(64)));
    assert_eq!(raw(1, 127).checked_div(&raw(2, 2)), Some(raw(1, 127)));
    assert_eq!(whole(0).checked_div(&raw(-128, 2)), Some(whole(0)));
    assert_eq!(whole(1).checked_add(&raw(1, 127)), None);
    assert_eq!([whole(-1) * raw(-128, 2), whole(0) / -128, whole(-128) % -1], [64, 0, 0].map(whole));
    assert_eq!([whole(-128).floor(), raw(1, 127).ceil()], [-128, 1].map(whole));
    assert!("1/-128".parse::<Ratio<i8>>().is_err());
}
