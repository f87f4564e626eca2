//! `Reduced::from_decimal`, compared with fractions of big integers.

mod support;

use bakhsney::{integer::Integer, DecimalRefusal, Reduced};
use num_traits::{ToPrimitive, Zero};
use original::BigRational;
use support::Numbers;

type Read<T> = Result<(T, T), DecimalRefusal>;

fn read<T: Integer>(text: &str) -> Read<T> {
    Reduced::from_decimal(text).map(Reduced::into_raw)
}

/// The parts of a decimal: a sign, the digits before and behind a point, and an exponent.
struct Decimal {
    sign: &'static str,
    whole: String,
    part: String,
    has_point: bool,
    exponent: Option<i64>,
}

/// So many digits. Some texts have the digits 0 and 5 alone.
fn digits(numbers: &mut Numbers, most: u64) -> String {
    let few = numbers.below(3) == 0;
    let count = numbers.below(most);
    (0..count)
        .map(|_| match (few, numbers.below(10)) {
            (true, 0..=5) => '0',
            (true, _) => '5',
            (false, digit) => char::from(b'0' + digit as u8),
        })
        .collect()
}

/// A short or a long decimal. It has at least one digit.
fn decimal(numbers: &mut Numbers) -> Decimal {
    let most = [4, 12, 60][numbers.below(3) as usize];
    let whole = digits(numbers, most);
    let has_point = numbers.below(4) > 0;
    let part = if has_point { digits(numbers, most) } else { String::new() };
    let reach = [5, 30, 140][numbers.below(3) as usize];
    let exponent = (numbers.below(2) == 0).then(|| numbers.below(2 * reach) as i64 - reach as i64);
    let whole = if whole.is_empty() && part.is_empty() { "7".into() } else { whole };
    Decimal { sign: ["", "-", "+"][numbers.below(3) as usize], whole, part, has_point, exponent }
}

impl Decimal {
    fn text(&self) -> String {
        let point = if self.has_point { "." } else { "" };
        let exponent = self.exponent.map_or(String::new(), |exponent| format!("e{exponent}"));
        format!("{}{}{point}{}{exponent}", self.sign, self.whole, self.part)
    }

    /// The value: all digits, over 10 to the count of those behind the point, times 10 to the exponent.
    fn value(&self) -> BigRational {
        let shift = self.exponent.unwrap_or(0) - self.part.len() as i64;
        let zeros = |count: i64| "0".repeat(count.max(0) as usize);
        let sign = if self.sign == "-" { "-" } else { "" };
        format!("{sign}{}{}{}/1{}", self.whole, self.part, zeros(shift), zeros(-shift)).parse().unwrap()
    }
}

/// The fields of the value if both fit the type.
fn fields<T: Integer>(value: &BigRational) -> Read<T> {
    let numer = value.numer().to_i128().and_then(|x| T::from(x)).or_else(|| T::from(value.numer().to_u128()?));
    let denom = value.denom().to_i128().and_then(|x| T::from(x)).or_else(|| T::from(value.denom().to_u128()?));
    numer.zip(denom).ok_or(DecimalRefusal::NotHeld)
}

macro_rules! sweeps {
    ($($name:ident $T:ty;)*) => {$(
        #[test]
        fn $name() {
            let mut numbers = Numbers(5);
            for _ in 0..texts() {
                let decimal = decimal(&mut numbers);
                let text = decimal.text();
                assert_eq!(read::<$T>(&text), fields(&decimal.value()), "{text}");
            }
        }
    )*};
}

/// How many texts are drawn for each type.
fn texts() -> u32 {
    std::env::var("BAKHSNEY_TEXTS").map_or(3000, |count| count.parse().unwrap())
}

sweeps! {
    big_i8 i8; big_i16 i16; big_i32 i32; big_i64 i64; big_i128 i128; big_isize isize;
    big_u8 u8; big_u16 u16; big_u32 u32; big_u64 u64; big_u128 u128; big_usize usize;
}

/// An exponent of any number of digits gives 0 or `NotHeld`.
#[test]
fn far_exponents() {
    let mut numbers = Numbers(6);
    for _ in 0..3000 {
        let near = decimal(&mut numbers);
        let mantissa = Decimal { exponent: None, ..near };
        let value = mantissa.value();
        let far = format!("{}{}{}", ["e", "E"][numbers.below(2) as usize], ["", "-", "+"][numbers.below(3) as usize], 1 + numbers.below(9));
        let text = mantissa.text() + &far + &"0".repeat(3 + numbers.below(60) as usize);
        let want = if value.is_zero() { Ok((0, 1)) } else { Err(DecimalRefusal::NotHeld) };
        assert_eq!(read::<i128>(&text), want, "{text}");
    }
}

/// Whether the text is a decimal, by its characters from the left.
fn is_decimal(text: &str) -> bool {
    let unsigned = text.strip_prefix(['+', '-']).unwrap_or(text);
    let (number, exponent) = match unsigned.find(['e', 'E']) {
        Some(at) => (&unsigned[..at], Some(&unsigned[at + 1..])),
        None => (unsigned, None),
    };
    let are_digits = |text: &str| text.bytes().all(|byte| byte.is_ascii_digit());
    let (whole, part) = number.split_once('.').unwrap_or((number, ""));
    let exponent_fits = exponent.map_or(true, |exponent| {
        let digits = exponent.strip_prefix(['+', '-']).unwrap_or(exponent);
        !digits.is_empty() && are_digits(digits)
    });
    are_digits(whole) && are_digits(part) && !(whole.is_empty() && part.is_empty()) && exponent_fits
}

/// Texts of a few characters, most of which are no decimals.
#[test]
fn any_characters() {
    let characters = ['0', '1', '5', '9', '.', '.', 'e', 'E', '+', '-', ' ', '_', '/', '\u{663}', 'x'];
    let mut numbers = Numbers(7);
    let mut decimals = 0;
    for _ in 0..100_000 {
        let count = numbers.below(8);
        let text: String = (0..count).map(|_| characters[numbers.below(characters.len() as u64) as usize]).collect();
        let refused = read::<i64>(&text) == Err(DecimalRefusal::NotDecimal);
        assert_eq!(refused, !is_decimal(&text), "{text}");
        decimals += u32::from(!refused);
    }
    assert!(decimals > 5000, "{decimals} decimals");
}

/// The value of a text, by big integers, or why it has none. An exponent of 1000 or more is too far for any type and any text here.
fn model(text: &str) -> Result<BigRational, DecimalRefusal> {
    if !is_decimal(text) {
        return Err(DecimalRefusal::NotDecimal);
    }
    let sign = if text.starts_with('-') { "-" } else { "" };
    let unsigned = text.strip_prefix(['+', '-']).unwrap_or(text);
    let (number, exponent) = unsigned.split_once(['e', 'E']).map_or((unsigned, "0"), |(number, exponent)| (number, exponent));
    let (whole, part) = number.split_once('.').unwrap_or((number, ""));
    let mantissa = Decimal { sign, whole: whole.into(), part: part.into(), has_point: true, exponent: None };
    if mantissa.value().is_zero() {
        return Ok(BigRational::zero());
    }
    match exponent.parse() {
        Ok(near) if (-1000..1000).contains(&near) => Ok(Decimal { exponent: Some(near), ..mantissa }.value()),
        _ => Err(DecimalRefusal::NotHeld),
    }
}

/// Characters of decimals, and some that are none.
const CHARACTERS: [&str; 24] = [
    "0", "0", "1", "2", "5", "5", "9", ".", ".", "e", "E", "+", "-", "-", " ", "_", "/", "%", ",", "x", "\0", "\u{663}", "\u{ff15}", "\u{1f600}",
];

/// A decimal with a few changes: characters that are left out, put in or repeated.
fn changed(numbers: &mut Numbers) -> String {
    let mut characters: Vec<String> = decimal(numbers).text().chars().map(String::from).collect();
    for _ in 0..numbers.below(4) {
        let at = numbers.below(characters.len() as u64 + 1) as usize;
        let new = CHARACTERS[numbers.below(CHARACTERS.len() as u64) as usize];
        match (numbers.below(4), characters.get(at).cloned()) {
            (0, Some(_)) => drop(characters.remove(at)),
            (1, Some(_)) => characters[at] = new.into(),
            (2, Some(old)) => characters.extend((0..numbers.below(30)).map(|_| old.clone())),
            _ => characters.insert(at, new.into()),
        }
    }
    characters.concat()
}

/// A text of any bytes, or of bytes near to those of decimals. What is not UTF-8 becomes the character U+FFFD.
fn any_bytes(numbers: &mut Numbers) -> String {
    let most = [6, 12, 40][numbers.below(3) as usize];
    let count = numbers.below(most);
    let near = numbers.below(2) == 0;
    let bytes: Vec<u8> = (0..count).map(|_| if near { b'*' + numbers.below(18) as u8 } else { numbers.below(256) as u8 }).collect();
    String::from_utf8_lossy(&bytes).into_owned()
}

/// Over each type, any text is read as the model reads it, and nothing panics.
#[test]
fn any_texts() {
    let mut numbers = Numbers(8);
    let (mut decimals, mut others) = (0, 0);
    for turn in 0..10 * texts() {
        let text = if turn % 3 == 0 { any_bytes(&mut numbers) } else { changed(&mut numbers) };
        let value = model(&text);
        macro_rules! agrees {
            ($($T:ty)*) => {$( assert_eq!(read::<$T>(&text), value.as_ref().map_err(|refusal| *refusal).and_then(fields), "{text:?}"); )*};
        }
        agrees!(i8 i16 i32 i64 i128 isize u8 u16 u32 u64 u128 usize);
        *(if value == Err(DecimalRefusal::NotDecimal) { &mut others } else { &mut decimals }) += 1;
    }
    assert!(decimals > texts() && others > texts(), "{decimals} decimals and {others} other texts");
}

#[test]
fn rows() {
    let rows = [
        ("12.375", Ok((99, 8))),
        ("-0.5", Ok((-1, 2))),
        ("5.", Ok((5, 1))),
        ("-0.00", Ok((0, 1))),
        ("+1.10", Ok((11, 10))),
        (".5e1", Ok((5, 1))),
        ("10e-1", Ok((1, 1))),
        ("9223372036854775807", Ok((i64::MAX, 1))),
        ("-9223372036854775808", Ok((i64::MIN, 1))),
        ("9223372036854775808", Err(DecimalRefusal::NotHeld)),
        ("1e-999999999999999999999", Err(DecimalRefusal::NotHeld)),
        ("1e", Err(DecimalRefusal::NotDecimal)),
        ("inf", Err(DecimalRefusal::NotDecimal)),
    ];
    for (text, want) in rows {
        assert_eq!(read::<i64>(text), want, "{text}");
    }
    assert_eq!(read::<u8>("-0"), Ok((0, 1)));
    assert_eq!(read::<u8>("-1"), Err(DecimalRefusal::NotHeld));
    assert_eq!(read::<i8>("0.99"), Ok((99, 100)));
}

/// Texts of many digits, whose values have short terms.
#[test]
fn long_texts() {
    let zeros = "0".repeat(1_000_000);
    assert_eq!(read::<i8>(&format!("0.5{zeros}")), Ok((1, 2)));
    assert_eq!(read::<i8>(&format!("{zeros}7.25{zeros}")), Ok((29, 4)));
    assert_eq!(read::<i8>(&format!("7{zeros}.e-1000000")), Ok((7, 1)));
    assert_eq!(read::<i8>(&format!(".{zeros}7e1000001")), Ok((7, 1)));
    assert_eq!(read::<i8>(&format!("7{zeros}")), Err(DecimalRefusal::NotHeld));
}
