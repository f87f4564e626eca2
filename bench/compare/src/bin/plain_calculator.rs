//! The line calculator as one would write it in plain Rust with num-rational. It reads lines from standard
//! input and writes answers to standard output, both buffered. Its rules are those of
//! `docs/CALC.md`.

use num_integer::Integer;
use num_rational::Ratio;
use num_traits::{CheckedAdd, CheckedDiv, CheckedMul, CheckedSub, Zero};
use std::cmp::Ordering;
use std::convert::TryFrom;
use std::io::{self, BufRead, BufReader, BufWriter, Write};

type Fraction = Ratio<i64>;
type Refusal = &'static str;

const MOST_BYTES: usize = 1000;
const OPERATORS: [&str; 6] = ["+", "-", "*", "/", "%", "cmp"];

/// A fraction of wider numbers, if both of its numbers fit.
fn narrow(wide: Ratio<i128>) -> Option<Fraction> {
    let numer = i64::try_from(*wide.numer()).ok()?;
    Some(Ratio::new_raw(numer, i64::try_from(*wide.denom()).ok()?))
}

fn wide(x: &Fraction) -> Ratio<i128> {
    Ratio::new_raw(i128::from(*x.numer()), i128::from(*x.denom()))
}

fn number(text: &str) -> Result<i64, Refusal> {
    text.parse().map_err(|_| "failed to parse integer")
}

fn fraction(text: &str) -> Result<Fraction, Refusal> {
    let (numer, denom) = match text.split_once('/') {
        Some((front, back)) => (number(front)?, number(back)?),
        None => (number(text)?, 1),
    };
    if denom == 0 {
        return Err("zero value denominator");
    }
    if numer == i64::MIN || denom == i64::MIN {
        let low = Ratio::new(i128::from(numer), i128::from(denom));
        return narrow(low).ok_or("failed to parse integer");
    }
    Ok(Ratio::new(numer, denom))
}

/// The remainder of the first by the second, if the numerators over the least common denominator fit.
fn remainder(x: &Fraction, y: &Fraction) -> Option<Fraction> {
    let common = (x.denom() / x.denom().gcd(y.denom())).checked_mul(*y.denom())?;
    let left = x.numer().checked_mul(&(common / x.denom()))?;
    let right = y.numer().checked_mul(&(common / y.denom()))?;
    Some(Ratio::new(left.checked_rem(right).unwrap_or(0), common))
}

/// The crate refuses some results that fit, so these are computed in wider numbers.
fn result(operator: &str, x: &Fraction, y: &Fraction) -> Option<Fraction> {
    match operator {
        "+" => x.checked_add(y).or_else(|| narrow(wide(x) + wide(y))),
        "-" => x.checked_sub(y).or_else(|| narrow(wide(x) - wide(y))),
        "*" => x.checked_mul(y).or_else(|| narrow(wide(x) * wide(y))),
        "/" => x.checked_div(y).or_else(|| narrow(wide(x) / wide(y))),
        _ => remainder(x, y),
    }
}

/// Every operand is read before an operator is applied.
fn operands(parts: &[&str]) -> Result<Vec<Fraction>, (&'static str, Refusal)> {
    let mut read = Vec::with_capacity(parts.len() / 2 + 1);
    for (index, part) in parts.iter().step_by(2).enumerate() {
        let side = if index == 0 { "left" } else { "right" };
        read.push(fraction(part).map_err(|refusal| (side, refusal))?);
    }
    Ok(read)
}

fn apply(parts: &[&str], read: &[Fraction], out: &mut impl Write) -> io::Result<()> {
    let mut x = read[0];
    for (operator, y) in parts.iter().skip(1).step_by(2).zip(&read[1..]) {
        if *operator == "cmp" {
            return out.write_all(match x.cmp(y) {
                Ordering::Less => b"<\n",
                Ordering::Equal => b"=\n",
                Ordering::Greater => b">\n",
            });
        }
        if (*operator == "/" || *operator == "%") && y.is_zero() {
            return out.write_all(b"error: division by zero\n");
        }
        x = match result(operator, &x, y) {
            Some(z) => z,
            None => return out.write_all(b"error: out of range\n"),
        };
    }
    writeln!(out, "{}", x)
}

fn answer_parts(parts: &[&str], out: &mut impl Write) -> io::Result<()> {
    if parts.len() < 3 || parts.len() % 2 == 0 || parts.iter().any(|part| part.is_empty()) {
        return out.write_all(b"error: want LEFT OP RIGHT\n");
    }
    let mut operators = parts.iter().skip(1).step_by(2);
    if operators.any(|operator| !OPERATORS.contains(operator)) {
        return out.write_all(b"error: unknown operator\n");
    }
    if parts[..parts.len() - 2].iter().skip(1).step_by(2).any(|operator| *operator == "cmp") {
        return out.write_all(b"error: cmp must be last\n");
    }
    match operands(parts) {
        Ok(read) => apply(parts, &read, out),
        Err((side, refusal)) => writeln!(out, "error: {}: {}", side, refusal),
    }
}

fn answer(line: &[u8], out: &mut impl Write) -> io::Result<()> {
    if line.len() > MOST_BYTES {
        return out.write_all(b"error: line too long\n");
    }
    let text = match std::str::from_utf8(line) {
        Ok(text) => text.strip_suffix('\r').unwrap_or(text),
        Err(_) => return out.write_all(b"error: not UTF-8\n"),
    };
    answer_parts(&text.split(' ').collect::<Vec<&str>>(), out)
}

/// Writes the answers to all lines.
pub fn answer_all(mut input: impl BufRead, out: &mut impl Write) -> io::Result<()> {
    let mut line = Vec::new();
    while input.read_until(b'\n', &mut line)? > 0 {
        answer(line.strip_suffix(b"\n").unwrap_or(&line), out)?;
        line.clear();
    }
    out.flush()
}

fn main() -> io::Result<()> {
    answer_all(BufReader::new(io::stdin()), &mut BufWriter::new(io::stdout()))
}
