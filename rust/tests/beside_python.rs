//! `BigFraction` beside Python's `Fraction`, by drawn numbers of up to 5,000 decimal digits: five results of each pair, the order and the text.
//! `BAKHSNEY_PAIRS` says how many pairs. Without `python3` it compares nothing, and says so.
#![cfg(feature = "alloc")]

mod support;

use bakhsney::BigFraction;
use num_traits::Num;
use std::fmt::Write as _;
use std::io::{BufRead, BufReader, Write};
use std::process::{Command, Stdio};
use std::thread;
use support::Numbers;

/// Reads two fractions a line, of hexadecimal numbers. It writes the results as such fractions, or `None` for a division by 0, and then the order and
/// the first fraction in base 10.
const PROGRAM: &str = "
import sys
from fractions import Fraction
getattr(sys, 'set_int_max_str_digits', lambda count: None)(0)
def text(x):
    return f'{x.numerator:x}/{x.denominator:x}'
def remainder(x, y):
    return x - y * int(x / y)
for line in sys.stdin:
    x, y = (Fraction(*(int(number, 16) for number in word.split('/'))) for word in line.split())
    results = [text(x + y), text(x - y), text(x * y)]
    results += [text(x / y), text(remainder(x, y))] if y else ['None', 'None']
    print(*results, (x > y) - (x < y), x)
";

fn pairs() -> u64 {
    std::env::var("BAKHSNEY_PAIRS").map_or(200, |pairs| pairs.parse().unwrap())
}

/// The digits of a number. One of 32 is of any length up to 5,000 decimal digits.
fn drawn(numbers: &mut Numbers) -> Vec<u64> {
    let most = match numbers.below(32) {
        0 => 260,
        1..=8 => 10,
        _ => 2,
    };
    let count = numbers.below(most);
    let mut digits: Vec<u64> = (0..count).map(|_| numbers.word()).collect();
    digits.push(numbers.word() >> numbers.below(64));
    digits
}

fn in_hexadecimal(digits: &[u64]) -> String {
    let all: String = digits.iter().rev().map(|digit| format!("{digit:016x}")).collect();
    let text = all.trim_start_matches('0');
    if text.is_empty() { "0".to_string() } else { text.to_string() }
}

/// A fraction, and how Python is told of it.
fn fraction(numbers: &mut Numbers) -> (BigFraction, String) {
    let (is_negative, numer, denom) = (numbers.below(2) == 0, drawn(numbers), drawn(numbers));
    let denom = if denom.iter().all(|&digit| digit == 0) { vec![3] } else { denom };
    let text = format!("{}{}/{}", if is_negative { "-" } else { "" }, in_hexadecimal(&numer), in_hexadecimal(&denom));
    (BigFraction::from_digits(is_negative, &numer, &denom).unwrap(), text)
}

fn result(x: Option<BigFraction>) -> String {
    let sign = |x: &BigFraction| if *x < 0 { "-" } else { "" };
    x.map_or("None".to_string(), |x| format!("{}{}/{}", sign(&x), in_hexadecimal(&x.numer_digits()), in_hexadecimal(&x.denom_digits())))
}

fn line(x: &BigFraction, y: &BigFraction) -> String {
    let results = [Some(x + y), Some(x - y), Some(x * y), x.try_div(y).unwrap(), x.try_rem(y).unwrap()];
    let mut line = String::new();
    for x in results {
        write!(line, "{} ", result(x)).unwrap();
    }
    format!("{line}{} {x}", x.cmp(y) as i8)
}

#[test]
fn results() {
    let spawned = Command::new("python3").args(["-c", PROGRAM]).stdin(Stdio::piped()).stdout(Stdio::piped()).spawn();
    let mut python = match spawned {
        Ok(python) => python,
        // The macros for this would write nothing while the test passes.
        Err(error) => return writeln!(std::io::stderr(), "BigFraction was not compared with Python's Fraction: {error}").unwrap(),
    };
    let drawn = || {
        let mut numbers = Numbers(11);
        (0..pairs()).map(move |_| (fraction(&mut numbers), fraction(&mut numbers)))
    };
    let mut told = python.stdin.take().unwrap();
    let teller = thread::spawn(move || drawn().for_each(|((_, x), (_, y))| writeln!(told, "{x} {y}").unwrap()));
    let mut answers = BufReader::new(python.stdout.take().unwrap()).lines();
    for ((x, told), (y, other)) in drawn() {
        assert_eq!(line(&x, &y), answers.next().expect("an answer").unwrap(), "{told} and {other}");
        assert_eq!(BigFraction::from_str_radix(&told, 16), Ok(x));
    }
    assert!(answers.next().is_none());
    teller.join().unwrap();
    assert!(python.wait().unwrap().success());
}
