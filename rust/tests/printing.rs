//! Fractions printed with an exponent, `{:e}` and `{:E}`, compared with num-rational, and in lowest terms as decimals with a precision in braces.

mod support;

use bakhsney::{Ratio, Reduced, Reduced64};
use support::Numbers;

#[test]
fn exponents() {
    let x = Ratio::new(1500i32, 7);
    assert_eq!([format!("{x:e}"), format!("{x:E}")], ["1.5e3/7e0", "1.5E3/7E0"]);
    let lowest = Reduced::try_from(x).unwrap();
    assert_eq!([format!("{lowest:e}"), format!("{lowest:>12E}|{:+e}", Reduced::from(20u8))], ["1.5e3/7e0", "   1.5E3/7E0|+2e1"]);
    let whole = Ratio::new(-120i64, 1);
    assert_eq!([format!("{whole:e}"), format!("{whole:E}")], ["-1.2e2", "-1.2E2"]);
    assert_eq!(format!("{:e} {:e}", Ratio::new(0u8, 1), Ratio::new_raw(-4i8, -2)), "0e0 -4e0/-2e0");
    let least = Ratio::new_raw(i128::MIN, i128::MIN);
    assert_eq!(format!("{least:e}"), "-1.70141183460469231731687303715884105728e38/-1.70141183460469231731687303715884105728e38");
    let most = Ratio::new_raw(u128::MAX, u128::MAX);
    assert_eq!(format!("{most:E}"), "3.40282366920938463463374607431768211455E38/3.40282366920938463463374607431768211455E38");
}

#[test]
fn options_of_exponents() {
    let (x, y) = (Ratio::new(1, 20), Ratio::new(-1, 20));
    assert_eq!(format!("{x:>9e}|{x:<9e}|{x:*^9e}|{x:+e}|{x:#e}"), "  1e0/2e1|1e0/2e1  |*1e0/2e1*|+1e0/2e1|1e0/2e1");
    assert_eq!(format!("{y:>10E}|{y:010E}|{y:+E}|{y:2E}|{y:.1E}"), "  -1E0/2E1|-001E0/2E1|-1E0/2E1|-1E0/2E1|-1E0/2E1");
}

#[test]
fn exponents_beside_num_rational() {
    let mut numbers = Numbers(4);
    for _ in 0..2000 {
        let (numer, denom) = (numbers.of_any_length() as i128, numbers.of_any_length() as i128 | 1);
        let (ours, theirs) = (Ratio::new_raw(numer, denom), original::Ratio::new_raw(numer, denom));
        assert_eq!(format!("{ours:e} {ours:#E} {ours:+099e}"), format!("{theirs:e} {theirs:#E} {theirs:+099e}"));
    }
}

fn lowest(numer: i64, denom: i64) -> Reduced64 {
    Reduced::checked_new(numer, denom).unwrap()
}

#[test]
fn precisions() {
    let x = lowest(7, 2);
    assert_eq!(format!("{x:.2}|{x:8.3}|{x:+.0}|{x:08.2}|{x}|{x:6}"), "3.50|   3.500|+4|00003.50|7/2|   7/2");
    let x = lowest(-1, 1_000);
    assert_eq!(format!("{x:.2}|{x:+.2}|{x:.3}|{x:06.0}|{x:*^9.3}"), "0.00|+0.00|-0.001|000000|*-0.001**");
    assert_eq!(format!("{:.100}", lowest(1, 3)), format!("0.{}", "3".repeat(100)));
    assert_eq!(format!("{:.1$}", lowest(-1, 3), 65_535), format!("-0.{}", "3".repeat(65_535)));
    assert_eq!(format!("{:.1}", Ratio::new(7, 2)), "7/2");
}

/// In 39 places the fraction is rounded up over 38 nines.
#[test]
fn nines() {
    let denom = 300_000_000_000_000_000_000_000_000_000_000_000_001u128;
    let x = Reduced::checked_new(denom / 10, denom).unwrap();
    let want = [format!("0.1{}", "0".repeat(37)), format!("0.1{}", "0".repeat(38)), format!("0.0{}7", "9".repeat(38)), format!("0.0{}67", "9".repeat(38))];
    assert_eq!([38, 39, 40, 41].map(|places| format!("{x:.places$}")), want);
}

/// The decimal by a division digit by digit, rounded at the end.
fn by_hand(numer: i64, denom: i64, places: usize) -> String {
    let (size, denom) = (u128::from(numer.unsigned_abs()), denom as u128);
    let (mut digits, mut rest): (Vec<u8>, u128) = ((size / denom).to_string().bytes().collect(), size % denom);
    let whole = digits.len();
    for _ in 0..places {
        digits.push(b'0' + (rest * 10 / denom) as u8);
        rest = rest * 10 % denom;
    }
    let is_odd = digits[digits.len() - 1] % 2 == 1;
    if rest * 2 > denom || rest * 2 == denom && is_odd {
        let nines = digits.iter().rev().take_while(|digit| **digit == b'9').count();
        let at = digits.len() - nines;
        digits[at..].fill(b'0');
        if at == 0 {
            digits.insert(0, b'1');
        } else {
            digits[at - 1] += 1;
        }
    }
    let whole = whole + (digits.len() - whole - places);
    let is_below = numer < 0 && digits.iter().any(|digit| *digit != b'0');
    let text = String::from_utf8(digits).unwrap();
    let point = if places == 0 { "" } else { "." };
    format!("{}{}{point}{}", if is_below { "-" } else { "" }, &text[..whole], &text[whole..])
}

#[test]
fn each_number_of_places() {
    let denoms = [1, 2, 3, 7, 8, 40, 97, 1_000, 999_999_937, 1 << 62, i64::MAX];
    for numer in [0, 1, -1, 5, 999, -1_999, 4_611_686_018_427_387_905, i64::MAX - 1, i64::MIN] {
        for denom in denoms {
            let x = lowest(numer, denom);
            for places in 0..100 {
                let want = by_hand(numer, denom, places);
                assert_eq!(format!("{x:.places$}"), want);
                let (sign, digits) = if let Some(digits) = want.strip_prefix('-') { ("-", digits) } else { ("+", &want[..]) };
                assert_eq!(format!("{x:+0130.places$}"), format!("{sign}{digits:0>129}"));
                assert_eq!(format!("{x:é^131.places$}"), format!("{want:é^131}"));
                assert_eq!(format!("{x:130.places$}|{x:<130.places$}"), format!("{want:>130}|{want:<130}"));
            }
        }
    }
}

/// If a float is exact, it is printed as the fraction, but for the minus of a value that is rounded to 0. Without places, std rounded 0.5
/// to 1 before Rust 1.67.
#[test]
fn as_exact_floats() {
    for numer in -4_000..4_000 {
        let (x, exact) = (lowest(numer, 1_024), numer as f64 / 1_024.0);
        for places in 1..12 {
            let float = format!("{exact:.places$}");
            let is_zero = !float.contains(|digit| ('1'..='9').contains(&digit));
            let exact = if is_zero { 0.0 } else { exact };
            assert_eq!(format!("{x:.places$}|{x:+.places$}|{x:16.places$}"), format!("{exact:.places$}|{exact:+.places$}|{exact:16.places$}"));
            assert_eq!(format!("{x:016.places$}|{x:<16.places$}|{x:*^16.places$}"), format!("{exact:016.places$}|{exact:<16.places$}|{exact:*^16.places$}"));
        }
    }
}
