//! serde's `with`: `text`, `decimal` and `two_numbers` for each pair of `i8`, beside a model of whole numbers, and rows of other types. The texts of
//! the rows are from Python's `fractions` and `decimal`.
#![cfg(feature = "serde")]

mod support;

use bakhsney::{decimal, text, two_numbers, BigFraction, Ratio, Reduced, Reduced64};
use serde::de::value::Error as PlainError;
use serde::de::IntoDeserializer;
use serde::{Deserialize, Deserializer, Serialize, Serializer};
use serde_json::value::Serializer as Json;
use serde_json::Deserializer as FromJson;
use std::collections::HashMap;
use support::Numbers;

/// The lowest terms, by trying each divisor.
fn lowest(numer: i32, denom: i32) -> Option<(i32, i32)> {
    let sign = if denom < 0 { -1 } else { 1 };
    let divisor = (1..=128).rev().find(|divisor| numer % divisor == 0 && denom % divisor == 0)?;
    if denom == 0 { None } else { Some((numer / divisor * sign, denom / divisor * sign)) }
}

fn model_text((numer, denom): (i32, i32)) -> String {
    if denom == 1 { format!("\"{numer}\"") } else { format!("\"{numer}/{denom}\"") }
}

fn model_two_numbers((numer, denom): (i32, i32)) -> String {
    format!("[{numer},{denom}]")
}

/// All places, which are at most seven: 1/128 has so many.
fn model_decimal((numer, denom): (i32, i32)) -> Option<String> {
    let places = (0..=7).find(|places| 10_i32.pow(*places) % denom == 0)?;
    let (one, sign) = (10_i32.pow(places), if numer < 0 { "-" } else { "" });
    let size = numer.abs() * (one / denom);
    let part = if places == 0 { String::new() } else { format!(".{:0>width$}", size % one, width = places as usize) };
    Some(format!("\"{sign}{}{part}\"", size / one))
}

/// Each fraction is written as the model says, if it has lowest terms that fit, and what is written is read again.
macro_rules! each_pair_of_i8 {
    ($($test:ident $form:ident: $model:expr;)*) => {$(
        #[test]
        fn $test() {
            let model: fn((i32, i32)) -> Option<String> = $model;
            for (n, d) in (-128..=127i8).flat_map(|n| (-128..=127i8).map(move |d| (n, d))) {
                let terms = lowest(n.into(), d.into());
                let fields = terms.and_then(|(n, d)| Some((i8::try_from(n).ok()?, i8::try_from(d).ok()?)));
                let text = fields.and_then(|_| model(terms?));
                assert_eq!($form::serialize(&Ratio::new_raw(n, d), Json).ok().map(|json| json.to_string()), text, "{n}/{d}");
                let big = terms.and_then(model);
                assert_eq!(BigFraction::checked_new(n, d).and_then(|x| $form::serialize(&x, Json).ok()).map(|json| json.to_string()), big, "{n}/{d}");
                if let (Some(text), Some((n, d))) = (text, fields) {
                    let reduced = Reduced::checked_new(n, d).unwrap();
                    assert_eq!($form::serialize(&reduced, Json).unwrap().to_string(), text);
                    assert_eq!($form::deserialize::<Reduced<i8>, _>(&mut FromJson::from_str(&text)).unwrap(), reduced, "{text}");
                    assert_eq!($form::deserialize::<Ratio<i8>, _>(&mut FromJson::from_str(&text)).unwrap().into_raw(), (n, d), "{text}");
                    assert_eq!($form::deserialize::<BigFraction, _>(&mut FromJson::from_str(&text)).unwrap(), BigFraction::new(n, d), "{text}");
                    assert_eq!($form::deserialize::<Option<Reduced<i8>>, _>(&mut FromJson::from_str(&text)).unwrap(), Some(reduced), "{text}");
                }
            }
        }
    )*};
}

each_pair_of_i8! {
    texts_of_i8 text: |terms| Some(model_text(terms));
    decimals_of_i8 decimal: model_decimal;
    two_numbers_of_i8 two_numbers: |terms| Some(model_two_numbers(terms));
}

/// What each form writes of a fraction, and that it reads the same fraction again.
macro_rules! written {
    ($($x:expr => $text:expr, $decimal:expr, $two_numbers:expr;)*) => {$(
        let x = $x;
        let of_form = |json: Result<serde_json::Value, serde_json::Error>| json.map_err(|error| error.to_string());
        let texts = [of_form(text::serialize(&x, Json)), of_form(decimal::serialize(&x, Json)), of_form(two_numbers::serialize(&x, Json))];
        let expected: [Result<&str, &str>; 3] = [$text, $decimal, $two_numbers];
        assert_eq!(texts.clone().map(|json| json.map(|json| json.to_string())), expected.map(|row| row.map(str::to_owned).map_err(str::to_owned)));
        let [by_text, by_decimal, by_two_numbers] = texts;
        let mut same = x.clone();
        if let Ok(json) = by_text { same = text::deserialize(json).unwrap(); assert_eq!(same, x); }
        if let Ok(json) = by_decimal { same = decimal::deserialize(json).unwrap(); assert_eq!(same, x); }
        if let Ok(json) = by_two_numbers { same = two_numbers::deserialize(json).unwrap(); }
        assert_eq!(same, x);
    )*};
}

const ENDLESS: Result<&str, &str> = Err("the fraction has no finite decimal");

#[test]
fn rows_of_machine_types() {
    let of = |numer, denom| Reduced64::checked_new(numer, denom).unwrap();
    written! {
        of(i64::MAX, 1 << 62) => Ok(r#""9223372036854775807/4611686018427387904""#),
            Ok(r#""1.99999999999999999978315956550289911319850943982601165771484375""#), Ok(r#"["9223372036854775807","4611686018427387904"]"#);
        of(i64::MIN, 7450580596923828125) => Ok(r#""-9223372036854775808/7450580596923828125""#),
            Ok(r#""-1.237940039285380274899124224""#), Ok(r#"["-9223372036854775808","7450580596923828125"]"#);
        of(1 << 53, 3) => Ok(r#""9007199254740992/3""#), ENDLESS, Ok("[9007199254740992,3]");
        of(-(1 << 53), 3) => Ok(r#""-9007199254740992/3""#), ENDLESS, Ok("[-9007199254740992,3]");
        of(-(1 << 53) - 1, 1 << 53) => Ok(r#""-9007199254740993/9007199254740992""#),
            Ok(r#""-1.00000000000000011102230246251565404236316680908203125""#), Ok(r#"["-9007199254740993",9007199254740992]"#);
        Reduced::checked_new(u128::MAX, 1).unwrap() => Ok(r#""340282366920938463463374607431768211455""#),
            Ok(r#""340282366920938463463374607431768211455""#), Ok(r#"["340282366920938463463374607431768211455",1]"#);
        Ratio::new(i128::MAX, 1 << 126) => Ok(r#""170141183460469231731687303715884105727/85070591730234615865843651857942052864""#),
            Ok(r#""1.999999999999999999999999999999999999988245056491777124920312634627777543221813344432279124784912482937215827405452728271484375""#),
            Ok(r#"["170141183460469231731687303715884105727","85070591730234615865843651857942052864"]"#);
        Ratio::new_raw(6i16, -4) => Ok(r#""-3/2""#), Ok(r#""-1.5""#), Ok("[-3,2]");
        Ratio::<isize>::new(7, 1) => Ok(r#""7""#), Ok(r#""7""#), Ok("[7,1]");
    }
}

#[test]
fn rows_of_any_size() {
    let long = |numer: &str, denom: &str| format!("{numer}/{denom}").parse::<BigFraction>().unwrap();
    written! {
        BigFraction::new(1, 1u128 << 100) => Ok(r#""1/1267650600228229401496703205376""#),
            Ok(r#""0.0000000000000000000000000000007888609052210118054117285652827862296732064351090230047702789306640625""#),
            Ok(r#"[1,"1267650600228229401496703205376"]"#);
        long("-7", "867361737988403547205962240695953369140625") => Ok(r#""-7/867361737988403547205962240695953369140625""#),
            Ok(r#""-0.000000000000000000000000000000000000000008070450532247928832""#), Ok(r#"[-7,"867361737988403547205962240695953369140625"]"#);
        long("717897987691852588770249", "67762635780344027125465800054371356964111328125000") =>
            Ok(r#""717897987691852588770249/67762635780344027125465800054371356964111328125000""#),
            Ok(r#""0.0000000000000000000000000105943043599861554956617593711039125045379072""#),
            Ok(r#"["717897987691852588770249","67762635780344027125465800054371356964111328125000"]"#);
        BigFraction::from(10).pow(40) => Ok(r#""10000000000000000000000000000000000000000""#), Ok(r#""10000000000000000000000000000000000000000""#),
            Ok(r#"["10000000000000000000000000000000000000000",1]"#);
        BigFraction::new(1, 3 * (1u64 << 40)) => Ok(r#""1/3298534883328""#), ENDLESS, Ok("[1,3298534883328]");
        BigFraction::from(0) => Ok(r#""0""#), Ok(r#""0""#), Ok("[0,1]");
    }
}

/// A decimal whose last digit is not 0 is written as it was read, and one third of it is not written.
#[test]
fn decimals_of_any_size() {
    let mut numbers = Numbers(11);
    for _ in 0..2000 {
        let digits = |numbers: &mut Numbers, count: u64| (0..count).map(|_| char::from(b'0' + numbers.below(10) as u8)).collect::<String>();
        let most = [4, 30, 200][numbers.below(3) as usize];
        let count = numbers.below(most);
        let whole = digits(&mut numbers, 1 + count / 2);
        let whole = whole.trim_start_matches('0');
        let part = format!("{}{}", digits(&mut numbers, count), 1 + numbers.below(9));
        let text = format!("{}{}.{part}", ["", "-"][numbers.below(2) as usize], if whole.is_empty() { "0" } else { whole });
        let x: BigFraction = decimal::deserialize(serde_json::Value::from(&*text)).unwrap();
        assert_eq!(decimal::serialize(&x, Json).unwrap(), text);
        let third = decimal::serialize(&(&x / 3), Json);
        let digit_sum: u64 = text.bytes().filter(u8::is_ascii_digit).map(|digit| u64::from(digit - b'0')).sum();
        assert_eq!(third.is_ok(), digit_sum % 3 == 0, "{text}");
    }
    for k in 0..200 {
        for (base, other) in [(2, 5), (5, 2)] {
            let digits = BigFraction::from(other).pow(k).to_string();
            let text = if k == 0 { "1".to_owned() } else { format!("0.{digits:0>width$}", width = k as usize) };
            assert_eq!(decimal::serialize(&BigFraction::from(base).pow(-k), Json).unwrap(), text, "{base}^-{k}");
        }
    }
}

/// What each form says of a JSON value that it refuses.
#[test]
fn refusals() {
    type Of<T> = Reduced<T>;
    let at = |error: serde_json::Error| error.to_string().split(" at line").next().unwrap().to_owned();
    macro_rules! refused {
        ($($form:ident $type:ty: $json:expr => $said:expr;)*) => {$(
            assert_eq!($form::deserialize::<$type, _>(&mut FromJson::from_str($json)).map_err(at), Err($said.to_owned()), "{}", $json);
        )*};
    }
    refused! {
        text Of<i8>: r#""x""# => "the text is not a number such as -0.5, 3/4, -1 1/2 or 12.5%";
        text Of<i8>: r#""1/0""# => "the denominator is 0";
        text Of<i8>: r#""128""# => "the lowest terms do not fit the type, or a whole number of the fraction is 2^128 or more";
        text Ratio<u8>: r#""-1/2""# => "the lowest terms do not fit the type, or a whole number of the fraction is 2^128 or more";
        text Of<i8>: "1" => "invalid type: integer `1`, expected a text such as \"-3/4\"";
        text Of<i8>: "[1,2]" => "invalid type: sequence, expected a text such as \"-3/4\"";
        text Of<i8>: "null" => "invalid type: null, expected a text such as \"-3/4\"";
        text BigFraction: r#""1/0""# => "the denominator is 0";
        text BigFraction: r#""1e1000000000""# => "the numerator or the denominator has more bits than the bound";
        text Option<Of<i8>>: r#""x""# => "the text is not a number such as -0.5, 3/4, -1 1/2 or 12.5%";
        decimal Of<i8>: r#""1/2""# => "the text is not a decimal such as -12.5 or 1.5e-3";
        decimal Of<i8>: r#""128""# => "the lowest terms of the decimal do not fit the type";
        decimal Of<i8>: "0.5" => "invalid type: floating point `0.5`, expected a text such as \"12.375\"";
        decimal BigFraction: r#""12,5""# => "the text is not a decimal such as -12.5 or 1.5e-3";
        decimal BigFraction: r#""1e-1000000000""# => "the numerator or the denominator has more bits than the bound";
        two_numbers Of<i8>: "[1,0]" => "invalid value: integer `0`, expected a ratio with non-zero denominator";
        two_numbers Of<i8>: "[128,2]" => "the numerator or the denominator does not fit the type";
        two_numbers Of<u64>: "[-1,2]" => "the numerator or the denominator does not fit the type";
        two_numbers Of<i8>: r#"["128",2]"# => "the lowest terms of the decimal do not fit the type";
        two_numbers Of<i8>: "[1,-128]" => "the denominator is 0, or the lowest terms do not fit the type or the memory";
        two_numbers Of<i8>: "[1.0,2]" => "invalid type: floating point `1`, expected a whole number, or a text of one";
        two_numbers Of<i8>: r#"["1.0",2]"# => "invalid value: string \"1.0\", expected a whole number, or a text of one";
        two_numbers Of<i8>: "[1]" => "invalid length 1, expected a list of two whole numbers";
        two_numbers Of<i8>: "[1,2,3]" => "invalid length 3, expected a list of two whole numbers";
        two_numbers Of<i8>: r#""1/2""# => "invalid type: string \"1/2\", expected a list of two whole numbers";
    }
    let no_value = "the denominator is 0, or the lowest terms do not fit the type or the memory";
    for x in [Ratio::new_raw(1i8, 0), Ratio::new_raw(-128, -1), Ratio::new_raw(1, -128)] {
        let said = [text::serialize(&x, Json), decimal::serialize(&x, Json), two_numbers::serialize(&x, Json)].map(|json| json.unwrap_err().to_string());
        assert_eq!(said, [no_value; 3]);
    }
}

/// An exponent may make a number of 4096 bits and four for each byte of the text: 4120 for the six of these texts. 10^1240 has so many, and its double one more.
#[test]
fn exponents_have_a_bound() {
    for (json, is_read) in [(r#""1e1240""#, true), (r#""2e1240""#, false), (r#""0e1241""#, true)] {
        assert_eq!(text::deserialize::<BigFraction, _>(&mut FromJson::from_str(json)).is_ok(), is_read, "{json}");
        assert_eq!(decimal::deserialize::<BigFraction, _>(&mut FromJson::from_str(json)).is_ok(), is_read, "{json}");
    }
    for text in [format!("0.{}1", "0".repeat(5000)), "9".repeat(5000)] {
        let x: BigFraction = decimal::deserialize(serde_json::Value::from(&*text)).unwrap();
        assert_eq!(decimal::serialize(&x, Json).unwrap(), text);
    }
}

/// Typed texts are read, whole numbers are written in other ways, and equal values of a format that is not JSON are.
#[test]
fn other_texts_and_formats() {
    let half = Reduced::checked_new(1i8, 2).unwrap();
    for typed in ["1/2", "0.5", "50%", "-1/-2", "5e-1", "0 1/2", "200/400"] {
        assert_eq!(text::deserialize::<Reduced<i8>, _>(&mut FromJson::from_str(&format!("{typed:?}"))).unwrap(), half, "{typed}");
        let plain: Result<Reduced<i8>, PlainError> = text::deserialize(typed.into_deserializer());
        assert_eq!(plain.unwrap(), half, "{typed}");
        let owned: Result<Ratio<i8>, PlainError> = text::deserialize(typed.to_owned().into_deserializer());
        assert_eq!(owned.unwrap(), half.to_ratio(), "{typed}");
    }
    for listed in ["[1,2]", r#"["+001","2"]"#, "[-64,-128]", r#"["-3",-6]"#] {
        assert_eq!(two_numbers::deserialize::<Reduced<i8>, _>(&mut FromJson::from_str(listed)).ok(), Some(half), "{listed}");
    }
    let wide = r#"[18446744073709551615,"340282366920938463463374607431768211455"]"#;
    let fields = two_numbers::deserialize::<Ratio<u128>, _>(&mut FromJson::from_str(wide)).unwrap().into_raw();
    assert_eq!(fields, (1, 18446744073709551617));
}

#[test]
fn options() {
    let half = Some(Reduced64::checked_new(1, 2).unwrap());
    let write = |x: &Option<Reduced64>| [text::serialize(x, Json), decimal::serialize(x, Json), two_numbers::serialize(x, Json)].map(|json| json.unwrap().to_string());
    assert_eq!(write(&half), [r#""1/2""#, r#""0.5""#, "[1,2]"]);
    assert_eq!(write(&None), ["null"; 3]);
    let read = |json: [&str; 3]| -> [Option<Reduced64>; 3] {
        let [by_text, by_decimal, by_two_numbers] = json.map(|json| serde_json::from_str::<serde_json::Value>(json).unwrap());
        [text::deserialize(by_text).unwrap(), decimal::deserialize(by_decimal).unwrap(), two_numbers::deserialize(by_two_numbers).unwrap()]
    };
    assert_eq!(read([r#""1/2""#, r#""0.5""#, "[1,2]"]), [half; 3]);
    assert_eq!(read(["null"; 3]), [None::<Reduced64>; 3]);
}

/// A key as `#[serde(transparent)]` and `#[serde(with = "text")]` make one.
#[derive(Clone, Copy, PartialEq, Eq, Hash, Debug)]
struct Key(Ratio<i32>);

impl Serialize for Key {
    fn serialize<S: Serializer>(&self, format: S) -> Result<S::Ok, S::Error> {
        text::serialize(&self.0, format)
    }
}

impl<'de> Deserialize<'de> for Key {
    fn deserialize<D: Deserializer<'de>>(format: D) -> Result<Key, D::Error> {
        text::deserialize(format).map(Key)
    }
}

#[test]
fn keys_of_maps() {
    let map = HashMap::from([(Key(Ratio::new_raw(-2, 4)), 7)]);
    let text = serde_json::to_string(&map).unwrap();
    assert_eq!(text, r#"{"-1/2":7}"#);
    assert_eq!(serde_json::from_str::<HashMap<Key, i32>>(&text).unwrap(), map);
    assert!(serde_json::from_str::<HashMap<Key, i32>>(r#"{"1/0":7}"#).is_err());
}
