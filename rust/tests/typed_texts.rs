//! `Reduced::from_text`, compared with fractions of big integers.

mod support;

use bakhsney::{integer::Integer, DecimalRefusal, Ratio, Reduced, TextRefusal};
use num_traits::{One, ToPrimitive, Zero};
use original::BigRational;
use support::Numbers;

type Read<T> = Result<(T, T), TextRefusal>;

fn read<T: Integer>(text: &str) -> Read<T> {
    Reduced::from_text(text).map(Reduced::into_raw)
}

/// The digits of a whole number. Some have zeros in front, and some are 2^128 or a neighbour.
fn digits(numbers: &mut Numbers) -> String {
    let zeros = "0".repeat([0, 0, 1, 50][numbers.below(4) as usize]);
    let number = match numbers.below(12) {
        0 => "340282366920938463463374607431768211455".into(),
        1 => "340282366920938463463374607431768211456".into(),
        2 => format!("{}00000000000000000000", numbers.of_any_length()),
        3..=6 => numbers.below(30).to_string(),
        _ => numbers.of_any_length().to_string(),
    };
    zeros + &number
}

fn sign(numbers: &mut Numbers) -> &'static str {
    ["", "", "-", "+"][numbers.below(4) as usize]
}

/// The number of a sign and digits.
fn value(sign: &str, digits: &str) -> BigRational {
    let number: BigRational = digits.parse().unwrap();
    if sign == "-" { -number } else { number }
}

fn is_wide(digits: &str) -> bool {
    digits.parse::<u128>().is_err()
}

/// The fields of n/d if both fit the type. `wide` says whether a number of the text is 2^128 or more.
fn fields<T: Integer>(n: &BigRational, d: &BigRational, wide: bool) -> Read<T> {
    if d.is_zero() {
        return Err(TextRefusal::ZeroDenominator);
    }
    let value = n / d;
    let numer = value.numer().to_i128().and_then(|x| T::from(x)).or_else(|| T::from(value.numer().to_u128()?));
    let denom = value.denom().to_i128().and_then(|x| T::from(x)).or_else(|| T::from(value.denom().to_u128()?));
    numer.zip(denom).filter(|_| !wide).ok_or(TextRefusal::NotHeld)
}

/// What a text is divided by, and the sign behind it.
fn share(numbers: &mut Numbers) -> (BigRational, &'static str) {
    if numbers.below(3) == 0 {
        (BigRational::from_integer(100.into()), "%")
    } else {
        (BigRational::one(), "")
    }
}

fn fraction<T: Integer>(numbers: &mut Numbers) -> (String, Read<T>) {
    let (s, a, t, b) = (sign(numbers), digits(numbers), sign(numbers), digits(numbers));
    let (by, percent) = share(numbers);
    (format!("{s}{a}/{t}{b}{percent}"), fields(&value(s, &a), &(value(t, &b) * by), is_wide(&a) || is_wide(&b)))
}

fn mixed<T: Integer>(numbers: &mut Numbers) -> (String, Read<T>) {
    let (s, a, b, c) = (sign(numbers), digits(numbers), digits(numbers), digits(numbers));
    let numer = value("", &a) * value("", &c) + value("", &b);
    let numer = if s == "-" { -numer } else { numer };
    (format!("{s}{a} {b}/{c}"), fields(&numer, &value("", &c), is_wide(&a) || is_wide(&b) || is_wide(&c)))
}

fn decimal<T: Integer>(numbers: &mut Numbers) -> (String, Read<T>) {
    let (s, whole, part) = (sign(numbers), digits(numbers), digits(numbers));
    let exponent = numbers.below(200) as i64 - 100;
    let (by, percent) = share(numbers);
    let shift = exponent - part.len() as i64;
    let tens = value("", &format!("1{}", "0".repeat(shift.unsigned_abs() as usize)));
    let number = value(s, &format!("{whole}{part}"));
    let (n, d) = if shift < 0 { (number, tens) } else { (number * tens, BigRational::one()) };
    (format!("{s}{whole}.{part}e{exponent}{percent}"), fields(&n, &(d * by), false))
}

macro_rules! sweeps {
    ($($name:ident $T:ty;)*) => {$(
        #[test]
        fn $name() {
            let mut numbers = Numbers(8);
            let mut held = 0;
            for _ in 0..texts() {
                for (text, want) in [fraction::<$T>(&mut numbers), mixed(&mut numbers), decimal(&mut numbers)] {
                    assert_eq!(read::<$T>(&text), want, "{text}");
                    held += u32::from(want.is_ok());
                }
            }
            assert!(held > texts() / 40, "{held} held");
        }
    )*};
}

/// How many texts of each kind are drawn for each type.
fn texts() -> u32 {
    std::env::var("BAKHSNEY_TEXTS").map_or(400, |count| count.parse().unwrap())
}

sweeps! {
    big_i8 i8; big_i16 i16; big_i32 i32; big_i64 i64; big_i128 i128; big_isize isize;
    big_u8 u8; big_u16 u16; big_u32 u32; big_u64 u64; big_u128 u128; big_usize usize;
}

/// Whether the text is a sign or none, and one digit or more.
fn is_whole(text: &str) -> bool {
    is_digits(text.strip_prefix(['+', '-']).unwrap_or(text))
}

fn is_digits(text: &str) -> bool {
    !text.is_empty() && text.bytes().all(|byte| byte.is_ascii_digit())
}

fn is_plain(text: &str) -> bool {
    let fraction = text.split_once('/').map_or(false, |(a, b)| is_whole(a) && is_whole(b));
    fraction || Reduced::<i64>::from_decimal(text) != Err(DecimalRefusal::NotDecimal)
}

fn is_mixed(text: &str) -> bool {
    text.split_once(' ').map_or(false, |(a, fraction)| {
        is_whole(a) && fraction.split_once('/').map_or(false, |(b, c)| is_digits(b) && is_digits(c))
    })
}

fn is_typed(text: &str) -> bool {
    is_plain(text) || is_mixed(text) || text.strip_suffix('%').map_or(false, is_plain)
}

/// Texts of a few characters: which of them are numbers, and that the calls for decimals and for printed fractions agree.
#[test]
fn any_characters() {
    let characters = ['0', '1', '5', '9', '.', 'e', '+', '-', ' ', ' ', '/', '/', '%', '\u{663}', 'x'];
    let mut numbers = Numbers(9);
    let mut typed = 0;
    for _ in 0..300_000 {
        let count = numbers.below(9);
        let text: String = (0..count).map(|_| characters[numbers.below(characters.len() as u64) as usize]).collect();
        let result = Reduced::<i8>::from_text(&text);
        assert_eq!(result == Err(TextRefusal::NotNumber), !is_typed(&text), "{text}");
        typed += u32::from(result.is_ok());
        match Reduced::<i8>::from_decimal(&text) {
            Ok(decimal) => assert_eq!(result, Ok(decimal), "{text}"),
            Err(DecimalRefusal::NotHeld) => assert_eq!(result, Err(TextRefusal::NotHeld), "{text}"),
            Err(DecimalRefusal::NotDecimal) => {}
        }
        if let Ok(fraction) = text.parse::<Ratio<i8>>() {
            assert_eq!(result.map(Reduced::into_raw), Ok(fraction.into_raw()), "{text}");
        }
    }
    assert!(typed > 5000, "{typed} typed");
}

/// Bytes that are drawn as UTF-8 never make the call panic.
#[test]
fn any_bytes() {
    let mut numbers = Numbers(10);
    for _ in 0..100_000 {
        let count = numbers.below(24);
        let bytes: Vec<u8> = (0..count).map(|_| numbers.word() as u8 & if numbers.below(4) > 0 { 0x3f } else { 0xff }).collect();
        let _ = Reduced::<i64>::from_text(&String::from_utf8_lossy(&bytes));
    }
}

#[test]
fn rows() {
    let rows = [
        ("3/4", Ok((3, 4))),
        ("0.75", Ok((3, 4))),
        ("3", Ok((3, 1))),
        ("1 1/2", Ok((3, 2))),
        ("-1 1/2", Ok((-3, 2))),
        ("-0 1/2", Ok((-1, 2))),
        ("1 3/2", Ok((5, 2))),
        ("+1 1/2", Ok((3, 2))),
        ("12.5%", Ok((1, 8))),
        ("1/2%", Ok((1, 200))),
        ("1e2%", Ok((1, 1))),
        ("1/-2", Ok((-1, 2))),
        ("2/4", Ok((1, 2))),
        ("1/0", Err(TextRefusal::ZeroDenominator)),
        ("0/0", Err(TextRefusal::ZeroDenominator)),
        ("1 1/0", Err(TextRefusal::ZeroDenominator)),
        ("x/0", Err(TextRefusal::NotNumber)),
        ("50 %", Err(TextRefusal::NotNumber)),
        ("1  1/2", Err(TextRefusal::NotNumber)),
        ("1 -1/2", Err(TextRefusal::NotNumber)),
        ("", Err(TextRefusal::NotNumber)),
    ];
    for (text, want) in rows {
        assert_eq!(read::<i64>(text), want, "{text}");
    }
    assert_eq!(read::<i8>("200/400"), Ok((1, 2)));
    assert_eq!(read::<i8>("200/3"), Err(TextRefusal::NotHeld));
}

/// A call that reads two numbers by themselves refuses one that does not fit. This call goes by the value, but for a number that 128
/// bits do not hold.
#[test]
fn numbers_that_do_not_fit() {
    assert!(["200/400".parse::<Reduced<i8>>(), Reduced::from_str_radix("200/400", 10)].iter().all(|read| read.is_err()));
    assert_eq!(read::<i8>("0/340282366920938463463374607431768211455"), Ok((0, 1)));
    assert_eq!(read::<i8>("0/340282366920938463463374607431768211456"), Err(TextRefusal::NotHeld));
    assert_eq!(Reduced::<i8>::from_decimal("0e340282366920938463463374607431768211456").map(Reduced::into_raw), Ok((0, 1)));
}

/// Texts of many digits, whose values have short terms.
#[test]
fn long_texts() {
    let zeros = "0".repeat(1_000_000);
    assert_eq!(read::<i8>(&format!("{zeros}1/{zeros}2")), Ok((1, 2)));
    assert_eq!(read::<i8>(&format!("{zeros}1 {zeros}1/{zeros}2")), Ok((3, 2)));
    assert_eq!(read::<i8>(&format!("7{zeros}e-999998%")), Ok((7, 1)));
    assert_eq!(read::<i8>(&format!("1{zeros}/1{zeros}")), Err(TextRefusal::NotHeld));
}
