//! When a call panics, and with which text. And no call on a denominator of 0 runs forever. Refusals go through `?` into a `Box<dyn Error>`, which
//! prints what is wrong. Each public error is one of std, and the errors that num-rational has, too, have its texts.

// The tests compare a fraction with itself.
#![allow(clippy::eq_op)]

use bakhsney::*;
use num_traits::{CheckedAdd, CheckedDiv, CheckedMul, CheckedRem, CheckedSub, Num, Signed, ToPrimitive, Zero};
use std::collections::hash_map::DefaultHasher;
use std::collections::BTreeSet;
use std::error::Error;
use std::fmt::Display;
use std::hash::{Hash, Hasher};
use std::panic::{catch_unwind, UnwindSafe};

type Call = fn(Ratio<i32>, Ratio<i32>);

/// The text of the panic, or nothing if the call returns.
fn refusal<R>(call: impl FnOnce() -> R + UnwindSafe) -> String {
    match catch_unwind(call) {
        Ok(_) => String::new(),
        Err(cause) => match cause.downcast_ref::<String>() {
            Some(text) => text.clone(),
            None => (*cause.downcast_ref::<&str>().unwrap()).to_owned(),
        },
    }
}

#[test]
fn conditions_are_tested() {
    let (greatest, least) = (Ratio::from_integer(i64::MAX), Ratio::from_integer(i64::MIN));
    let none = Ratio::from_integer(0i64);
    assert_eq!(refusal(|| Ratio::new(1, 0)), "denominator == 0");
    assert_eq!(refusal(|| Ratio::new(1i8, -128)), "attempt to negate with overflow");
    assert_eq!(refusal(|| Ratio::new_raw(1i8, -128).reduced()), "attempt to negate with overflow");
    assert_eq!(refusal(|| Ratio::from((1, 0))), "denominator == 0");
    assert_eq!(refusal(move || greatest + 1), "attempt to add with overflow");
    assert_eq!(refusal(move || least - 1), "attempt to subtract with overflow");
    assert_eq!(refusal(move || greatest * 2), "attempt to multiply with overflow");
    assert_eq!(refusal(move || greatest / Ratio::new(1, 2)), "attempt to multiply with overflow");
    assert_eq!(refusal(move || greatest / none), "denominator == 0");
    assert_eq!(refusal(move || greatest % none), "attempt to calculate the remainder with a divisor of zero");
    assert_eq!(refusal(|| Ratio::from_integer(255u8) % Ratio::new(2, 3)), "attempt to multiply with overflow");
    // Over `i8`, the lowest terms of 1/-128 do not fit. Only `/` and `%` name a divisor of 0.
    let (refused, zero) = (Ratio::new_raw(1i8, -128), Ratio::from_integer(0));
    assert_eq!(refusal(move || refused + zero), "attempt to add with overflow");
    assert_eq!(refusal(move || refused - zero), "attempt to subtract with overflow");
    assert_eq!(refusal(move || refused * zero), "attempt to multiply with overflow");
    assert_eq!(refusal(move || refused.recip()), "attempt to negate with overflow");
    assert_eq!(refusal(|| Ratio::new_raw(3i8, -128).recip()), "attempt to negate with overflow");
    assert_eq!(refusal(move || refused.pow(0)), "attempt to negate with overflow");
    assert_eq!(refusal(move || [greatest, greatest].iter().sum::<Ratio<i64>>()), "attempt to add with overflow");
    assert_eq!(refusal(move || none.recip()), "division by zero");
    assert_eq!(refusal(move || none.pow(-1)), "division by zero");
    assert_eq!(refusal(move || least.recip()), "attempt to negate with overflow");
    assert_eq!(refusal(move || greatest.pow(2)), "attempt to multiply with overflow");
    assert_eq!(refusal(move || least.abs()), "attempt to negate with overflow");
    for radix in [0, 1, 37] {
        let text = format!("from_str_radix_int: must lie in the range `[2, 36]` - found {radix}");
        assert_eq!(refusal(|| Ratio::<i8>::from_str_radix("1/1", radix)), text);
    }
    assert_eq!(refusal(move || -least), "attempt to negate with overflow");
    assert_eq!(refusal(|| Ratio::new_raw(1i8, -128).floor()), "attempt to negate with overflow");
    assert_eq!(refusal(|| Ratio::new_raw(1, 0)), "");
}

#[test]
fn a_denominator_of_0_ends_each_other_call() {
    let broken = Ratio::new_raw(1i32, 0);
    let sound = Ratio::new(1, 2);
    let calls: [(&str, Call); 31] = [
        ("add", |x, y| done(x + y)),
        ("sub", |x, y| done(x - y)),
        ("mul", |x, y| done(x * y)),
        ("div", |x, y| done(x / y)),
        ("rem", |x, y| done(x % y)),
        ("add to", |x, y| done(y + x)),
        ("sub from", |x, y| done(y - x)),
        ("mul by", |x, y| done(y * x)),
        ("div by", |x, y| done(y / x)),
        ("rem by", |x, y| done(y % x)),
        ("cmp", |x, y| done(x.cmp(&y))),
        ("cmp with", |x, y| done(y.cmp(&x))),
        ("eq", |x, y| done(x == y)),
        ("itself", |x, _| done(x == x)),
        ("hash", |x, _| x.hash(&mut DefaultHasher::new())),
        ("reduced", |x, _| done(x.reduced())),
        ("abs", |x, _| done(x.abs())),
        ("abs_sub", |x, y| done(x.abs_sub(&y))),
        ("signum", |x, _| done(x.signum())),
        ("is_positive", |x, _| done(x.is_positive())),
        ("is_negative", |x, _| done(x.is_negative())),
        ("recip", |x, _| done(x.recip())),
        ("pow", |x, _| done(x.pow(2))),
        ("pow of 0", |x, _| done(x.pow(0))),
        ("neg", |x, _| done(-x)),
        ("floor", |x, _| done(x.floor())),
        ("ceil", |x, _| done(x.ceil())),
        ("round", |x, _| done(x.round())),
        ("trunc", |x, _| done(x.trunc())),
        ("fract", |x, _| done(x.fract())),
        ("sum", |x, y| done([x, y].iter().sum::<Ratio<i32>>())),
    ];
    for (name, call) in calls {
        assert_eq!(refusal(move || call(broken, sound)), "denominator == 0", "{name}");
    }
    assert_eq!(broken.into_raw(), (1, 0));
    assert!(!broken.is_integer() && !broken.is_zero());
    assert_eq!(hash_of(sound), hash_of(Ratio::new_raw(-2, -4)));
}

#[test]
fn a_denominator_of_0_is_none_in_each_option() {
    let (broken, sound) = (Ratio::new_raw(1i32, 0), Ratio::new(1, 2));
    for (x, y) in [(broken, sound), (sound, broken), (broken, broken)] {
        let results = [x.checked_add(&y), x.checked_sub(&y), x.checked_mul(&y), x.checked_div(&y), x.checked_rem(&y)];
        assert_eq!(results.map(|result| result.is_none()), [true; 5], "{x} and {y}");
        assert_eq!(x.partial_cmp(&y), None, "{x} and {y}");
    }
    assert!([-1, 0, 1].iter().all(|&exponent| broken.checked_pow(exponent).is_none()));
    assert_eq!((broken.to_i64(), broken.to_u64(), broken.to_i128(), broken.to_u128()), (None, None, None, None));
    assert_eq!((broken.to_i8(), broken.to_isize(), broken.to_usize()), (None, None, None));
}

/// A denominator of 0 is printed as num-rational prints it.
#[test]
fn a_denominator_of_0_is_printed() {
    macro_rules! forms {
        ($x:expr) => {{
            let x = $x;
            let decimal = format!("{x}|{x:+}|{x:#}|{x:9}|{x:<9}|{x:^9}|{x:*>9}|{x:09}|{x:+09}|{x:.1}");
            let bases = format!("{x:b}|{x:o}|{x:x}|{x:X}|{x:#b}|{x:#o}|{x:#x}|{x:#X}|{x:+x}|{x:+#09b}|{x:*^15X}");
            format!("{decimal}|{bases}|{x:e}|{x:E}|{x:>+9e}")
        }};
    }
    for numer in [0, 1, 7, -1, 127, -128] {
        let raw = Ratio::new_raw(numer, 0i8);
        assert_eq!(forms!(raw), forms!(original::Ratio::new_raw(numer, 0i8)));
        let mut text = BaseTenText::empty();
        raw.put_base_ten_text(&mut text);
        assert_eq!([text.as_str(), raw.base_ten_text().as_str()], [raw.to_string().as_str(); 2]);
    }
    assert_eq!(forms!(Ratio::new_raw(u128::MAX, 0)), forms!(original::Ratio::new_raw(u128::MAX, 0)));
    assert_eq!(format!("{} {:#x} {:e}", Ratio::new_raw(1, 0), Ratio::new_raw(1, 0), Ratio::new_raw(1, 0)), "1/0 0x1/0x0 1e0/0e0");
}

fn hash_of(x: Ratio<i32>) -> u64 {
    let mut state = DefaultHasher::new();
    x.hash(&mut state);
    state.finish()
}

fn done<R>(_: R) {}

/// Two parts of an amount that is written as a decimal, by shares that a person types.
fn by_shares(amount: &str, shares: [&str; 2]) -> Result<[i8; 2], Box<dyn Error>> {
    let amount = Reduced::<i8>::from_decimal(amount)?;
    let shares = [Reduced::from_text(shares[0])?, Reduced::from_text(shares[1])?];
    let mut parts = [0; 2];
    split(amount.to_integer(), &shares, &mut parts)?;
    Ok(parts)
}

fn by_weights(amount: i8, weights: &[i8]) -> Result<[i8; 2], Box<dyn Error>> {
    let mut parts = [0; 2];
    split_by_weights(amount, weights, &mut parts)?;
    Ok(parts)
}

#[test]
fn refusals_go_through_a_question_mark() {
    let not_held = "the lowest terms do not fit the type, or a whole number of the fraction is 2^128 or more";
    let rows = [
        (by_shares("1,5", ["1/2", "50%"]), "the text is not a decimal such as -12.5 or 1.5e-3"),
        (by_shares("128", ["1/2", "50%"]), "the lowest terms of the decimal do not fit the type"),
        (by_shares("100", ["1.5/2", "50%"]), "the text is not a number such as -0.5, 3/4, -1 1/2 or 12.5%"),
        (by_shares("100", ["1/2", "1/0"]), "the denominator is 0"),
        (by_shares("100", ["1/2", "200/3"]), not_held),
        (by_shares("100", ["3/2", "-1/2"]), "a share is below 0"),
        (by_shares("100", ["1/127", "1/126"]), "the shares do not add up to 1"),
        (by_shares("100", ["1/3", "1/3"]), "the shares do not add up to 1"),
        (by_weights(100, &[1, 1, 1]), "the number of parts is not the number of weights"),
        (by_weights(100, &[2, -1]), "a weight is below 0"),
        (by_weights(100, &[127, 1]), "the sum of the weights does not fit the type"),
        (by_weights(100, &[0, 0]), "no weight is above 0"),
    ];
    for (result, text) in rows {
        assert_eq!(result.unwrap_err().to_string(), text);
    }
    assert_eq!(by_shares("1e2", ["1/2", "50%"]).unwrap(), [50, 50]);
    assert_eq!(by_weights(100, &[1, 1]).unwrap(), [50, 50]);
    let refusal = split(100, &[Reduced::<i8>::from(1)], &mut []).unwrap_err();
    assert_eq!(refusal.to_string(), "the number of parts is not the number of shares");
    let sum_not_held = "a sum of the first shares, or the amount times this sum, rounded, does not fit the type";
    assert_eq!(SplitRefusal::NotHeld.to_string(), sum_not_held);
}

/// What a program needs of an error that it hands to another thread, prints, copies and counts by a map.
fn is_error<E: Error + Display + Copy + Eq + Hash + Send + Sync + 'static>() {}

/// The names of errors in the list of what the crate exports.
fn exported_errors() -> BTreeSet<&'static str> {
    let exports = include_str!("../src/lib.rs").lines().filter(|line| line.trim_start().starts_with("pub use"));
    let names = exports.flat_map(|line| line.split(|sign: char| !sign.is_alphanumeric()));
    names.filter(|name| name.ends_with("Error") || name.ends_with("Refusal") || name.starts_with("Too")).collect()
}

macro_rules! errors {
    ($($Error:ident)*) => {
        #[test]
        fn each_exported_error_is_one_of_std() {
            $(is_error::<$Error>();)*
            assert_eq!(exported_errors(), BTreeSet::from([$(stringify!($Error)),*]));
        }
    };
}

errors! { AllocError BigTextRefusal CastError DecimalRefusal FloatError ParseRatioError ParseRoundingError ReducedError SplitRefusal TextRefusal TooLong WeightRefusal }

#[test]
fn texts_of_errors() {
    let texts: [(Box<dyn Error + Send + Sync>, &str); 5] = [
        (Reduced::<i8>::try_from(Reduced64::from(128)).unwrap_err().into(), "the numerator or the denominator does not fit the type"),
        (Reduced::<i8>::try_from((1, 0)).unwrap_err().into(), "the denominator is 0, or the lowest terms do not fit the type or the memory"),
        (Reduced32::try_from(0.1f64).unwrap_err().into(), "the float is infinite or no number, or its lowest terms do not fit the type or the memory"),
        ("1/0".parse::<Rational32>().unwrap_err().into(), "zero value denominator"),
        ("1/x".parse::<Rational32>().unwrap_err().into(), "failed to parse integer"),
    ];
    for (error, text) in texts {
        assert_eq!((error.to_string(), format!("{error:>80}")), (text.to_owned(), format!("{text:>80}")));
    }
}

#[test]
fn texts_of_num_rational() {
    for text in ["1/0", "0/0", "", "x", "1/", "/2", "1/2/3", "128", "1/128", "1.5", " 1", "--1"] {
        let (ours, theirs) = (text.parse::<Ratio<i8>>().unwrap_err(), text.parse::<original::Ratio<i8>>().unwrap_err());
        assert_eq!((ours.to_string(), format!("{ours:?}")), (theirs.to_string(), format!("{theirs:?}")), "{text}");
    }
}

#[cfg(feature = "serde")]
#[test]
fn texts_of_num_rational_by_serde() {
    for text in ["[1,0]", "[0,0]", "[128,1]", "[1,-129]", "[1]", "[1,2,3]", "[]", "{}", "1", "\"1/2\"", "[1.5,2]", "[null,1]", "[1,", "", "{\"numer\":1,\"denom\":2}"] {
        let (ours, theirs) = (serde_json::from_str::<Ratio<i8>>(text).unwrap_err(), serde_json::from_str::<original::Ratio<i8>>(text).unwrap_err());
        assert_eq!(ours.to_string(), theirs.to_string(), "{text}");
    }
}
