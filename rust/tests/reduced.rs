//! Rows of the type that is always in lowest terms.

// The tests are about these forms.
#![allow(clippy::needless_borrows_for_generic_args)]

use bakhsney::{BaseTenText, DecimalText, Ratio, RatioErrorKind, Reduced, Reduced64, ReducedError, Rounding};
use num_traits::{CheckedNeg, ToPrimitive};
use std::cmp::Ordering;
use std::collections::hash_map::DefaultHasher;
use std::collections::{BTreeSet, HashMap};
use std::hash::{Hash, Hasher};
use std::ops::Bound::{Excluded, Included, Unbounded};

type Fields<T> = Option<(T, T)>;

fn i8_of(numer: i8, denom: i8) -> Reduced<i8> {
    Reduced::checked_new(numer, denom).unwrap()
}

fn fields<T: bakhsney::integer::Integer>(answer: Option<Reduced<T>>) -> Fields<T> {
    answer.map(Reduced::into_raw)
}

#[test]
fn made_in_lowest_terms_or_refused() {
    assert_eq!(fields(Reduced64::checked_new(6, -4)), Some((-3, 2)));
    assert_eq!(Reduced64::checked_new(1, 0), None);
    assert_eq!(fields(Reduced::checked_new(1i8, -128)), None);
    assert_eq!(fields(Reduced::checked_new(2i8, -128)), Some((-1, 64)));
    let raw = [(-128, -1), (4, -2), (0, -5)];
    let made = raw.map(|(n, d)| fields(Reduced::from_ratio(&Ratio::<i8>::new_raw(n, d))));
    assert_eq!(made, [None, Some((-2, 1)), Some((0, 1))]);
}

#[test]
fn products_quotients_and_sums_at_the_edges() {
    assert_eq!(fields(i8_of(127, 2).checked_mul(i8_of(2, 127))), Some((1, 1)));
    assert_eq!(i8_of(-128, 1).checked_mul(-1), None);
    assert_eq!(fields(i8_of(64, 1).checked_div(i8_of(-1, 2))), Some((-128, 1)));
    assert_eq!(i8_of(127, 1).checked_add(1), None);
    assert_eq!(i8_of(1, 2).checked_div(0), None);
    assert_eq!(i8_of(1, 2).checked_rem(&0), None);
    assert_eq!(fields(i8_of(127, 1).checked_rem(i8_of(1, 127))), Some((0, 1)));
    assert_eq!(i8_of(100, 99).checked_rem(i8_of(99, 100)), None);
    assert_eq!(i8_of(-128, 3).checked_recip(), None);
    assert_eq!(fields(i8_of(-127, 3).checked_recip()), Some((-3, 127)));
    assert_eq!((i8_of(-128, 3).checked_neg(), fields(i8_of(-127, 3).checked_abs())), (None, Some((127, 3))));
    assert_eq!(fields(i8_of(2, 3).checked_pow(-2)), Some((9, 4)));
    assert_eq!((fields(i8_of(-1, 2).checked_pow(-7)), i8_of(-1, 2).checked_pow(7)), (Some((-128, 1)), None));
}

#[test]
fn calls_with_each_kind_of_operand() {
    let [x, y] = [(17i64, 4), (3, 5)].map(|(n, d)| Reduced64::checked_new(n, d).unwrap());
    macro_rules! rows {
        ($($checked:ident $by_fraction:expr, $by_number:expr;)*) => {$(
            assert_eq!([x.$checked(y), x.$checked(&y)].map(fields), [Some($by_fraction); 2], stringify!($checked));
            assert_eq!([x.$checked(2), x.$checked(&2)].map(fields), [Some($by_number); 2], stringify!($checked));
        )*};
    }
    rows! {
        checked_add (97, 20), (25, 4);
        checked_sub (73, 20), (9, 4);
        checked_mul (51, 20), (17, 2);
        checked_div (85, 12), (17, 8);
        checked_rem (1, 20), (1, 4);
        checked_gcd (1, 20), (1, 4);
        checked_lcm (51, 1), (34, 1);
    }
}

#[test]
fn common_divisors_and_multiples() {
    let rows = [
        ((1, 4), (1, 6), Some((1, 12)), Some((1, 2))),
        ((-3, 2), (0, 1), Some((3, 2)), Some((0, 1))),
        ((0, 1), (0, 1), Some((0, 1)), Some((0, 1))),
        ((127, 2), (126, 1), Some((1, 2)), None),
        ((1, 127), (1, 126), None, Some((1, 1))),
        ((-128, 1), (0, 1), None, Some((0, 1))),
        ((-128, 3), (64, 5), Some((64, 15)), None),
    ];
    for ((a, b), (c, d), divisor, multiple) in rows {
        let (x, y) = (i8_of(a, b), i8_of(c, d));
        assert_eq!([x.checked_gcd(y), y.checked_gcd(x)].map(fields), [divisor; 2], "{x} and {y}");
        assert_eq!([x.checked_lcm(y), y.checked_lcm(x)].map(fields), [multiple; 2], "{x} and {y}");
    }
}

#[test]
fn rounding() {
    let rows = [((7, 2), [3, 4, 4, 3], (1, 2)), ((-7, 2), [-4, -3, -4, -3], (-1, 2)), ((7, 3), [2, 3, 2, 2], (1, 3)), ((-7, 3), [-3, -2, -2, -2], (-1, 3))];
    for ((numer, denom), whole, rest) in rows {
        let x = i8_of(numer, denom);
        assert_eq!([x.floor(), x.ceil(), x.round(), x.trunc()], whole.map(Reduced::from), "{x}");
        assert_eq!((x.to_integer(), x.fract().into_raw()), (whole[3], rest), "{x}");
    }
}

#[test]
fn simplest_between_two_of_either_kind() {
    let [low, high] = [i8_of(-7, 2), i8_of(-5, 3)];
    assert_eq!(fields(Reduced::simplest_between(&low, &high)), Some((-2, 1)));
    let between = |low: Ratio<i8>, high| Ratio::simplest_between(&low, &high).map(Ratio::into_raw);
    assert_eq!(between(Ratio::new_raw(-2, -6), Ratio::new_raw(4, 8)), Some((2, 5)));
    assert_eq!(between(Ratio::new_raw(-1, -128), Ratio::new(1, 2)), None);
    assert_eq!(between(Ratio::new(0, 1), Ratio::new(1, 127)), None);
    let (none, one) = (Ratio::new_raw(1, 0), Ratio::ONE);
    assert_eq!([between(none, one), between(one, none), between(none, none)], [None; 3]);
}

#[test]
fn simplest_within_bounds_of_either_kind() {
    let [third, half, wide] = [i8_of(1, 3), i8_of(1, 2), i8_of(5, 2)];
    let rows = [
        (Included(third), Included(half), Some((1, 2))),
        (Included(third), Excluded(half), Some((1, 3))),
        (Excluded(third), Excluded(half), Some((2, 5))),
        (Included(half), Included(half), Some((1, 2))),
        (Included(half), Excluded(half), None),
        (Included(half), Included(third), None),
        (Excluded(wide), Unbounded, Some((3, 1))),
        (Unbounded, Excluded(third), Some((0, 1))),
        (Unbounded, Unbounded, Some((0, 1))),
        (Excluded(i8_of(127, 1)), Unbounded, None),
        (Unbounded, Excluded(i8_of(-128, 1)), None),
        (Unbounded, Included(i8_of(-128, 1)), Some((-128, 1))),
    ];
    let ratio = |bound| match bound {
        Included(x) => Included(Ratio::from(x)),
        Excluded(x) => Excluded(Ratio::from(x)),
        Unbounded => Unbounded,
    };
    for (low, high, want) in rows {
        assert_eq!(fields(Reduced::simplest_within(low, high)), want, "{low:?}, {high:?}");
        assert_eq!(Ratio::simplest_within(ratio(low), ratio(high)).map(Ratio::into_raw), want, "{low:?}, {high:?}");
    }
    let from = |low| Ratio::simplest_within(Included(low), Unbounded).map(Ratio::into_raw);
    assert_eq!(from(Ratio::new_raw(10i8, -4)), Some((0, 1)));
    assert_eq!(from(Ratio::new_raw(6i8, 4)), Some((2, 1)));
    assert_eq!([from(Ratio::new_raw(1i8, 0)), from(Ratio::new_raw(-1, -128))], [None; 2]);
}

#[test]
fn continued_fractions() {
    let rows: [((i8, i8), &[i8]); 5] = [((-7, 3), &[-3, 1, 2]), ((5, 1), &[5]), ((0, 1), &[0]), ((-128, 127), &[-2, 1, 126]), ((1, 127), &[0, 127])];
    for ((numer, denom), quotients) in rows {
        let x = i8_of(numer, denom);
        assert!(x.continued_fraction().eq(quotients.iter().copied()), "{x}");
        assert!(x.to_ratio().continued_fraction().unwrap().eq(quotients.iter().copied()), "{x}");
        assert_eq!(fields(Reduced::from_continued_fraction(quotients)), Some((numer, denom)));
        assert_eq!(Ratio::from_continued_fraction(quotients).map(Ratio::into_raw), Some((numer, denom)));
    }
    let x = Reduced64::checked_new(415, 93).unwrap();
    assert!(x.convergents().map(Reduced::into_raw).eq([(4, 1), (9, 2), (58, 13), (415, 93)]));
    assert!(i8_of(-128, 3).convergents().map(Reduced::into_raw).eq([(-43, 1), (-128, 3)]));
    // The same for a `Ratio`, which may be loose, or have no value or no lowest terms.
    let loose = Ratio::new_raw(-64i8, -8);
    assert!(loose.continued_fraction().unwrap().eq([8]));
    assert!(loose.convergents().unwrap().map(Reduced::into_raw).eq([(8, 1)]));
    let same = Ratio::new_raw(-830i64, -186);
    assert!(same.continued_fraction().unwrap().eq(x.continued_fraction()));
    assert!(same.convergents().unwrap().eq(x.convergents()));
    for none in [Ratio::new_raw(1i8, 0), Ratio::new_raw(1, -128)] {
        assert!(none.continued_fraction().is_none() && none.convergents().is_none());
    }
    for refused in [&[][..], &[3, 0], &[127, 127], &[1, -1], &[1; 193]] {
        assert_eq!(Reduced::<i8>::from_continued_fraction(refused), None);
        assert_eq!(Ratio::<i8>::from_continued_fraction(refused), None);
    }
    // The quotients of two neighbours among the Fibonacci numbers are all 1.
    assert_eq!(Reduced::<u128>::from_continued_fraction(&[1; 187]), None);
    let longest = Reduced::<u128>::from_continued_fraction(&[1; 185]);
    assert_eq!(longest.map(|x| x.continued_fraction().count()), Some(184));
}

#[test]
fn signs() {
    for (numer, denom, sign) in [(0, 1, 0), (3, 4, 1), (-3, 4, -1), (2, 1, 1), (-2, 1, -1)] {
        let x = i8_of(numer, denom);
        assert_eq!((x.signum(), x.is_positive(), x.is_negative()), (sign.into(), sign == 1, sign == -1), "{x}");
        assert_eq!((x.is_zero(), x.is_integer()), (sign == 0, denom == 1), "{x}");
        assert_eq!([x.checked_neg(), x.checked_abs()].map(fields), [Some((-numer, denom)), Some((numer.abs(), denom))]);
    }
}

#[test]
fn texts() {
    assert_eq!("6/-4".parse::<Reduced64>().unwrap().to_string(), "-3/2");
    assert_eq!("-7".parse::<Reduced64>(), Ok((-7).into()));
    assert_eq!("x/0".parse::<Reduced64>().unwrap_err().kind(), RatioErrorKind::ParseError);
    assert_eq!("1/0".parse::<Reduced64>().unwrap_err().kind(), RatioErrorKind::ZeroDenominator);
    for (text, radix, want) in [("101/11", 2, (5, 3)), ("-10/4", 10, (-5, 2)), ("f/2", 16, (15, 2)), ("z/10", 36, (35, 36))] {
        assert_eq!(Reduced64::from_str_radix(text, radix).map(Reduced::into_raw), Ok(want));
    }
    for radix in [0, 1, 37] {
        assert_eq!(Reduced64::from_str_radix("f/2", radix).unwrap_err().kind(), RatioErrorKind::ParseError);
    }
    assert!(Reduced64::from_str_radix("f", 16).is_err());
    let x = i8_of(-1, 10);
    assert_eq!(format!("{x:>7}|{x:#b}|{x:#o}|{x:#x}|{x:#X}"), "  -1/10|0b11111111/0b1010|0o377/0o12|0xff/0xa|0xFF/0xA");
    assert_eq!(format!("{} {:b} {:o} {:x} {:#X} {:?}", x, x, x, x, x, x), "-1/10 11111111/1010 377/12 ff/a 0xFF/0xA Reduced { numer: -1, denom: 10 }");
}

#[test]
fn order_equality_and_hash() {
    let [half, same, less] = [(1, 2), (2, 4), (-1, 3)].map(|(n, d)| Reduced64::checked_new(n, d).unwrap());
    assert_eq!(half, same);
    assert!(less < half);
    let counts: HashMap<_, _> = [(half, 1), (same, 2)].into();
    assert_eq!(counts.get(&half), Some(&2));
    assert_eq!([half, less, same].into_iter().collect::<BTreeSet<_>>().len(), 2);
    for (n, d, order) in [(1, 2, Ordering::Equal), (1, 3, Ordering::Greater), (3, 2, Ordering::Less), (2, 5, Ordering::Greater)] {
        let x = Reduced64::checked_new(n, d).unwrap();
        assert_eq!((half.cmp(&x), half.partial_cmp(&x)), (order, Some(order)), "{x}");
        assert_eq!((half == x, hash_of(half) == hash_of(x)), (order == Ordering::Equal, order == Ordering::Equal), "{x}");
    }
    assert_eq!(Ratio::from(half), Ratio::new(1, 2));
    assert_eq!(Reduced64::default(), Reduced64::ZERO);
}

fn hash_of(x: Reduced64) -> u64 {
    let mut state = DefaultHasher::new();
    x.hash(&mut state);
    state.finish()
}

#[test]
fn folds_take_fractions_and_numbers() {
    let shares = ["1/2", "1/3", "1/6"].map(|text| text.parse::<Reduced64>().unwrap());
    assert_eq!(Reduced64::checked_sum(&shares), Some(1.into()));
    assert_eq!(Reduced64::checked_sum(shares.iter().filter(|share| share.is_integer())), Some(0.into()));
    assert_eq!(fields(Reduced64::checked_product(shares)), Some((1, 36)));
    assert_eq!(Reduced::<u8>::checked_sum([255, 1]), None);
}

#[test]
fn conversions_of_pairs_and_ratios() {
    let rows = [((6, -4), Some((-3, 2))), ((1, 0), None), ((0, 0), None), ((0, -5), Some((0, 1))), ((1, -128), None), ((2, -128), Some((-1, 64)))];
    for (pair, want) in rows {
        let raw = Ratio::new_raw(pair.0, pair.1);
        let made: [Result<Reduced<i8>, ReducedError>; 2] = [pair.try_into(), raw.try_into()];
        assert_eq!(made.map(|made| made.ok().map(<(i8, i8)>::from)), [want; 2], "{pair:?}");
    }
    let error: Box<dyn std::error::Error> = Box::new(Reduced::try_from((1u8, 0)).unwrap_err());
    assert_eq!(error.to_string(), "the denominator is 0, or the lowest terms do not fit the type or the memory");
    assert_eq!(Ratio::from(i8_of(-6, 4)).into_raw(), (-3, 2));
}

#[test]
fn to_numbers() {
    let x = i8_of(-7, 2);
    assert_eq!((x.to_i64(), x.to_i128(), x.to_u64(), x.to_u128(), x.to_i8(), x.to_u8()), (Some(-3), Some(-3), None, None, Some(-3), None));
    assert_eq!((x.to_f32(), x.to_f64()), (-3.5, -3.5));
    assert_eq!((ToPrimitive::to_f32(&x), ToPrimitive::to_f64(&x)), (Some(-3.5), Some(-3.5)));
    let most = Reduced::from(u128::MAX);
    assert_eq!((most.to_u128(), most.to_i128(), most.to_u64(), most.to_i64()), (Some(u128::MAX), None, None, None));
    assert_eq!(most.to_f32(), f32::INFINITY);
    // Rounded once: as an `f64` and then as an `f32` it would be 0.3333333.
    assert_eq!(Reduced64::checked_new(178956969, 536870915).unwrap().to_f32(), 0.33333334);
    let negated = |x: Reduced<i8>| fields(CheckedNeg::checked_neg(&x));
    assert_eq!((negated(x), negated(Reduced::from(-128))), (Some((7, 2)), None));
}

#[test]
fn comparisons_with_ratios_and_numbers() {
    use Ordering::{Equal, Greater, Less};
    let half = i8_of(1, 2);
    let rows = [((1, 2), Some(Equal)), ((-2, -4), Some(Equal)), ((1, 3), Some(Greater)), ((1, -2), Some(Greater)), ((2, 3), Some(Less)), ((-128, -1), Some(Less)), ((1, 0), None), ((0, 0), None)];
    for ((numer, denom), order) in rows {
        let x = Ratio::new_raw(numer, denom);
        assert_eq!((half == x, half != x, half.partial_cmp(&x)), (order == Some(Equal), order != Some(Equal), order), "{x}");
        let symbols = [half < x, half <= x, half > x, half >= x];
        assert_eq!(symbols, [order == Some(Less), matches!(order, Some(Less | Equal)), order == Some(Greater), matches!(order, Some(Greater | Equal))]);
    }
    let two = i8_of(2, 1);
    assert!(two == 2 && two != 1 && two != -2 && half != 0 && half != 1);
    assert!(half > 0 && half < 1 && two >= 2 && two <= 2 && i8_of(-1, 2) < 0 && i8_of(127, 1) > -128);
    assert_eq!([-1, 0, 1].map(|n| half.partial_cmp(&n)), [Some(Greater), Some(Greater), Some(Less)]);
}

#[test]
fn sums_and_products_of_options() {
    let shares = ["1/2", "1/3", "1/6"].map(|text| text.parse::<Reduced64>().unwrap());
    let sums: [Option<Reduced64>; 2] = [shares.iter().sum(), shares.into_iter().sum()];
    assert_eq!(sums, [Some(Reduced64::ONE); 2]);
    let products: [Option<Reduced64>; 2] = [shares.iter().product(), shares.into_iter().product()];
    assert_eq!(products.map(fields), [Some((1, 36)); 2]);
    let none: [Reduced64; 0] = [];
    assert_eq!((none.iter().sum(), none.iter().product()), (Some(Reduced64::ZERO), Some(Reduced64::ONE)));
    let large = [255u8, 1].map(Reduced::from);
    assert_eq!((large.iter().sum::<Option<Reduced<u8>>>(), large.iter().product()), (None, Some(Reduced::from(255u8))));
    assert_eq!([16u8, 16].map(Reduced::from).iter().product::<Option<Reduced<u8>>>(), None);
}

#[test]
fn a_text_is_a_str() {
    let text: BaseTenText = i8_of(-1, 10).base_ten_text();
    let as_ref: &str = text.as_ref();
    assert_eq!((&*text, as_ref, text.len(), text.split_once('/')), ("-1/10", "-1/10", 5, Some(("-1", "10"))));
    assert_eq!((format!("{text}|{text:>7}|{text:?}"), text.to_string()), ("-1/10|  -1/10|\"-1/10\"".to_owned(), "-1/10".to_owned()));
    let text: DecimalText = i8_of(-1, 10).decimal(2, Rounding::Down);
    let as_ref: &str = text.as_ref();
    assert_eq!((&*text, as_ref, format!("{text}|{text:>7}|{text:?}")), ("-0.10", "-0.10", "-0.10|  -0.10|\"-0.10\"".to_owned()));
}

#[test]
fn nearest_of_a_ratio() {
    let nearest = |numer: i8, denom: i8, most: i8| Ratio::new_raw(numer, denom).nearest(most).map(Ratio::into_raw);
    assert_eq!([nearest(22, 7, 3), nearest(-44, -14, 3), nearest(22, -7, 3)], [Some((3, 1)), Some((3, 1)), Some((-3, 1))]);
    assert_eq!([nearest(1, 2, 1), nearest(-1, 2, 1), nearest(100, 99, 127)], [Some((0, 1)), Some((-1, 1)), Some((100, 99))]);
    assert_eq!([nearest(1, 2, 0), nearest(1, 2, -1), nearest(1, 0, 5), nearest(1, -128, 5)], [None; 4]);
}

#[test]
fn calls_of_reduced_for_a_ratio() {
    let pairs: [(i8, i8); 9] = [(1, 3), (2, -6), (-7, 2), (100, 3), (-128, 127), (-128, -2), (0, -5), (1, -128), (1, 0)];
    for (numer, denom) in pairs {
        let (x, lowest) = (Ratio::new_raw(numer, denom), Reduced::checked_new(numer, denom));
        for parts in [-1, 0, 1, 4, 100] {
            let want = lowest.and_then(|lowest| lowest.round_to(parts, Rounding::HalfEven));
            assert_eq!(x.round_to(parts, Rounding::HalfEven).map(Ratio::into_raw), fields(want), "{x} in {parts}");
        }
        let decimals = [x.exact_decimal(), lowest.and_then(|lowest| lowest.exact_decimal())].map(|text| text.map(|text| text.to_string()));
        assert_eq!(decimals[0], decimals[1], "{x}");
        assert_eq!(x.cast::<i64>().map(Ratio::into_raw), lowest.and_then(|lowest| fields(lowest.cast())), "{x}");
        assert_eq!(x.cast::<u8>().map(Ratio::into_raw), lowest.and_then(|lowest| fields(lowest.cast())), "{x}");
        if let Some(lowest) = lowest {
            assert_eq!(x.decimal(3, Rounding::Up).as_str(), lowest.decimal(3, Rounding::Up).as_str(), "{x}");
        }
    }
    let floats = [0.0, -0.5, 0.1, 127.5, 128.0, f64::NAN, f64::INFINITY];
    let lowest = floats.map(|float| fields(Reduced::<i8>::from_float(float)));
    assert_eq!(floats.map(|float| Ratio::try_from(float).ok().map(Ratio::into_raw)), lowest);
    assert_eq!(floats.map(|float| Ratio::from_float64(float).map(Ratio::into_raw)), lowest);
    assert_eq!([-0.5, 0.1].map(|float| Ratio::from_float32(float).map(Ratio::into_raw)), [Some((-1i8, 2)), None]);
}

#[cfg(feature = "serde")]
#[test]
fn serialized_as_lowest_terms_alone() {
    let read = |text: &str| serde_json::from_str::<Reduced<i8>>(text);
    assert_eq!(serde_json::to_string(&i8_of(-6, 4)).unwrap(), "[-3,2]");
    assert_eq!(["[-3,2]", "[0,1]", "[-128,1]", "[127,126]"].map(|text| read(text).unwrap().into_raw()), [(-3, 2), (0, 1), (-128, 1), (127, 126)]);
    for text in ["[2,4]", "[1,-2]", "[0,2]", "[0,-1]", "[1,0]", "[0,0]", "[-128,-128]", "[-128,-1]"] {
        let refusal = read(text).unwrap_err().to_string();
        assert!(refusal.starts_with("a fraction must be in lowest terms with a positive denominator"), "{text}: {refusal}");
    }
    assert!(["[128,1]", "[1]", "1", "[1,2,3]", "\"1/2\""].iter().all(|text| read(text).is_err()));
}

/// If a float is exact, `{:.2}` of it is the decimal by `HalfEven`, but for the minus of a value that is rounded to 0. Without places,
/// std rounded 0.5 to 1 before Rust 1.67.
#[test]
fn decimals_are_those_of_exact_floats() {
    for numer in -4_000..4_000i32 {
        let exact = f64::from(numer) / 1_024.0;
        let x = Reduced::checked_new(numer, 1_024).unwrap();
        for places in 1..12 {
            let float = format!("{exact:.*}", places as usize);
            let is_zero = !float.contains(|digit| ('1'..='9').contains(&digit));
            let want = if is_zero { float.trim_start_matches('-') } else { &float };
            assert_eq!(x.decimal(places, Rounding::HalfEven).as_str(), want);
        }
    }
}

/// The digits of a fraction over a power of two end, and are those of the float.
#[test]
fn all_digits_of_exact_floats() {
    for numer in -4_000..4_000i32 {
        let x = Reduced::checked_new(numer, 1_024).unwrap();
        let all = x.exact_decimal().unwrap();
        assert_eq!(all.as_str(), (f64::from(numer) / 1_024.0 + 0.0).to_string());
        assert!(Reduced::checked_new(numer * 3 + 1, 3 * 1_024).unwrap().exact_decimal().is_none());
    }
}

#[test]
#[should_panic(expected = "more than 38 places")]
fn more_places_than_a_decimal_has() {
    let _ = Reduced64::ONE.decimal(39, Rounding::Down);
}

#[test]
fn no_parts() {
    let third = i8_of(1, 3);
    assert_eq!([-128, -1, 0, 1].map(|parts| third.round_to(parts, Rounding::Up)), [None, None, None, Some(Reduced::ONE)]);
    assert_eq!([-128, -1, 0, 1].map(|parts| third.checked_mul_round_to(2, parts, Rounding::Up)), [None, None, None, Some(Reduced::ONE)]);
    assert_eq!([-128, -1, 0, 1].map(|parts| third.checked_div_round_to(2, parts, Rounding::Up)), [None, None, None, Some(Reduced::ONE)]);
}
