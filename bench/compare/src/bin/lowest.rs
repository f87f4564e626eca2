//! Fractions that are always in lowest terms, of the plain Rust crate. It compares their sums with those of big integers, their other
//! results with those of `Ratio` in that crate, and their times with those of `Ratio` and of num-rational. It ends with
//! status 1 if results differ. Its rows have the columns of the program `compare`.

#[path = "../kinds.rs"]
mod kinds;
#[path = "../mixing.rs"]
mod mixing;
#[path = "../random.rs"]
mod random;
#[path = "../timing.rs"]
mod timing;

use bakhsney::proved::num_rational::{Ratio, Reduced};
use bakhsney::Rounding;
use kinds::KINDS;
use mixing::Mixing;
use num_bigint::BigInt;
use num_integer::Integer;
use num_traits::{CheckedAdd, CheckedDiv, CheckedMul, CheckedSub};
use random::Random;
use std::hash::{Hash, Hasher};
use std::hint::black_box;
use std::io::Write;
use timing::times;

/// The number of pairs of each kind.
const COUNT: usize = 4096;

/// A call may take at most this part of `Ratio`'s time. That leaves room for what else the machine does.
const OF_RATIO: f64 = 1.1;

/// Where the sum fits and `Ratio` may refuse it, a call may take this much of the refusal's time.
const OF_REFUSAL: f64 = 4.0;

/// The inputs whose sums fit, with the call that adds or subtracts them.
const FITTING: [(&str, &str); 2] = [("full, fits", "checked_add"), ("near, fits", "checked_sub")];

/// A call may take at most this part of num-rational's time, if it has a goal.
fn goal(call: &str, kind: &str) -> Option<f64> {
    match call {
        "eq" | "hash" => Some(0.2),
        "checked_mul" if kind == "full" || kind == "near" => Some(0.8),
        "decimal" => Some(0.4),
        "from_decimal" => Some(2.0),
        _ => None,
    }
}

fn hashed(x: &impl Hash) -> u64 {
    let mut mixing = Mixing::new();
    x.hash(&mut mixing);
    mixing.finish()
}

/// The sum or difference of `a/b` and `c/d` by big integers, if its lowest terms fit.
fn by_big_integers<T: Into<BigInt> + TryFrom<BigInt>>(is_sum: bool, [a, b, c, d]: [T; 4]) -> Option<(T, T)> {
    let [a, b, c, d] = [a.into(), b.into(), c.into(), d.into()];
    let (left, right, denom) = (a * &d, c * &b, b * d);
    let numer = if is_sum { left + right } else { left - right };
    let divisor = numer.gcd(&denom);
    Some((T::try_from(numer / &divisor).ok()?, T::try_from(denom / divisor).ok()?))
}

/// Each pair by each of the three, timed.
fn run<A, B, C, X, Y, Z>(
    inputs: (&[A], &[B], &[C]),
    lowest: impl Fn(&A) -> X,
    ratio: impl Fn(&B) -> Y,
    theirs: impl Fn(&C) -> Z,
    row: &str,
    goal: Option<f64>,
) {
    let len = inputs.0.len();
    let mut first = || inputs.0.iter().for_each(|pair| drop(black_box(lowest(black_box(pair)))));
    let mut second = || inputs.1.iter().for_each(|pair| drop(black_box(ratio(black_box(pair)))));
    let mut third = || inputs.2.iter().for_each(|pair| drop(black_box(theirs(black_box(pair)))));
    let beside_ratio = times(len, &mut first, &mut second);
    let beside_theirs = times(len, &mut first, &mut third);
    let most = if row.ends_with("fits") { OF_REFUSAL } else { OF_RATIO };
    let is_met = beside_ratio.ratio <= most && goal.map_or(true, |most| beside_theirs.ratio <= most);
    println!(
        "Reduced\t{row}\t\t{:.1}\t{:.1}\t{:.1}\t\t{:.2}\t{:.2}\t{}\t{}\t\t\t",
        beside_theirs.ours,
        beside_ratio.theirs,
        beside_theirs.theirs,
        beside_theirs.ratio,
        beside_ratio.ratio,
        goal.map_or(String::new(), |most| format!("{most:.1}")),
        if is_met { "met" } else { "missed" }
    );
}

/// A checked call by each of the three: its times, and how many results of the first two differ.
macro_rules! checked_calls {
    ($lowest:ident, $ratio:ident, $theirs:ident, $wanted:expr, $name:expr, $kind:expr, $($call:ident)*) => {{
        let mut differing = 0;
        $(if $wanted(stringify!($call)) {
            for (x, y) in $lowest.iter().zip(&$ratio) {
                let fields = x.0.$call(&x.1).map(|z| z.into_raw());
                let wanted = match stringify!($call) {
                    name @ ("checked_add" | "checked_sub") => {
                        let numbers = [*x.0.numer(), *x.0.denom(), *x.1.numer(), *x.1.denom()];
                        by_big_integers(name == "checked_add", numbers)
                    }
                    _ => y.0.$call(&y.1).map(|z| z.into_raw()),
                };
                differing += usize::from(fields != wanted);
            }
            let row = format!("{}\t{}\t{}", $name, stringify!($call), $kind);
            let goal = goal(stringify!($call), $kind);
            let inputs = (&$lowest[..], &$ratio[..], &$theirs[..]);
            run(inputs, |p| p.0.$call(&p.1), |p| p.0.$call(&p.1), |p| p.0.$call(&p.1), &row, goal);
        })*
        differing
    }};
}

/// Pairs of each of the three types, from fields.
macro_rules! inputs {
    ($t:ty, $fields:expr) => {{
        let made = |n: i128, d: i128| Reduced::<$t>::checked_new(n as $t, d as $t).expect("a positive denominator");
        let lowest: Vec<_> = $fields.iter().map(|f| (made(f[0], f[1]), made(f[2], f[3]))).collect();
        let ratio: Vec<_> = lowest.iter().map(|p| (p.0.to_ratio(), p.1.to_ratio())).collect();
        let crates = |x: &Ratio<$t>| num_rational::Ratio::new_raw(*x.numer(), *x.denom());
        let theirs: Vec<_> = ratio.iter().map(|p| (crates(&p.0), crates(&p.1))).collect();
        (lowest, ratio, theirs)
    }};
}

macro_rules! rows {
    ($t:ty, $filter:expr) => {{
        let name = stringify!($t);
        let mut random = Random::new(20_240_229);
        let mut differing = 0;
        for kind in KINDS {
            let (lowest, ratio, theirs) = inputs!($t, kinds::pairs(kind, <$t>::BITS, COUNT, &mut random));
            let wanted = |call: &str| format!("{name}/lowest_{call}/{kind}").contains($filter);
            if wanted("eq") {
                differing += lowest.iter().zip(&ratio).filter(|(x, y)| (x.0 == x.1) != (y.0 == y.1)).count();
                let row = format!("{name}\teq\t{kind}");
                run((&lowest, &ratio, &theirs), |p| p.0 == p.1, |p| p.0 == p.1, |p| p.0 == p.1, &row, goal("eq", kind));
            }
            if wanted("hash") {
                let row = format!("{name}\thash\t{kind}");
                run((&lowest, &ratio, &theirs), |p| hashed(&p.0), |p| hashed(&p.0), |p| hashed(&p.0), &row, goal("hash", kind));
            }
            differing += checked_calls!(lowest, ratio, theirs, wanted, name, kind, checked_add checked_sub checked_mul checked_div);
        }
        differing
    }};
}

/// The sums that fit, over each type.
macro_rules! fitting_rows {
    ($filter:expr, $($t:ty)*) => {{
        let mut differing = 0;
        $(for (kind, fitting) in FITTING {
            let name = stringify!($t);
            let fields = kinds::fitting(kind == "near, fits", <$t>::BITS, COUNT, &mut Random::new(20_240_229));
            let (lowest, ratio, theirs) = inputs!($t, fields);
            let wanted = |call: &str| call == fitting && format!("{name}/lowest_{call}/{kind}").contains($filter);
            differing += checked_calls!(lowest, ratio, theirs, wanted, name, kind, checked_add checked_sub);
            assert!(lowest.iter().all(|p| (if fitting == "checked_add" { p.0.checked_add(&p.1) } else { p.0.checked_sub(&p.1) }).is_some()));
        })*
        differing
    }};
}

/// What `{:.2}` writes for a float, and its length.
fn float_text(x: f64) -> ([u8; 32], usize) {
    let mut buffer = [0; 32];
    let mut rest = &mut buffer[..];
    write!(rest, "{x:.2}").expect("the buffer has room");
    let left = rest.len();
    (buffer, 32 - left)
}

/// Decimals with two places, of fractions over 1024. Each is a float, too, and none is rounded to 0, where a float keeps its minus. The
/// program times the float in place of num-rational, which has no decimals.
fn decimal_row(filter: &str) -> usize {
    if !"i64/lowest_decimal/two places".contains(filter) {
        return 0;
    }
    let mut random = Random::new(20_240_229);
    let numers: Vec<_> = std::iter::repeat_with(|| random.signed(1 << 20) as i64).filter(|n| n.abs() > 5).take(COUNT).collect();
    let lowest: Vec<_> = numers.iter().map(|n| Reduced::<i64>::checked_new(*n, 1_024).expect("a positive denominator")).collect();
    let ratio: Vec<_> = numers.iter().map(|n| bakhsney::Ratio::new(*n, 1_024)).collect();
    let floats: Vec<_> = numers.iter().map(|n| *n as f64 / 1_024.0).collect();
    run(
        (&lowest, &ratio, &floats),
        |x| x.decimal(2, Rounding::HalfEven),
        |x| x.decimal(2, Rounding::HalfEven),
        |x| float_text(*x),
        "i64\tdecimal\ttwo places",
        goal("decimal", "two places"),
    );
    let differs = |x: &Reduced<i64>, float: &f64| x.decimal(2, Rounding::HalfEven).as_str() != format!("{float:.2}");
    lowest.iter().zip(&floats).filter(|(x, float)| differs(x, float)).count()
}

/// A decimal, the fraction that it is as a text, and its float.
struct Written {
    decimal: String,
    fraction: String,
    float: f64,
}

/// Thousandths, as `12.375`.
fn thousandths(n: i64) -> Written {
    let (sign, size) = (if n < 0 { "-" } else { "" }, n.abs());
    Written {
        decimal: format!("{sign}{}.{:03}", size / 1_000, size % 1_000),
        fraction: format!("{n}/1000"),
        float: n as f64 / 1_000.0,
    }
}

/// Reads the one text `12.375`, and others with three places. The program times the float in place of num-rational, which reads no
/// decimals, and the fraction in place of `Ratio`, which reads none either.
fn reading_rows(filter: &str) -> usize {
    let mut random = Random::new(20_240_229);
    let one = vec![12_375; COUNT];
    let many: Vec<_> = std::iter::repeat_with(|| random.signed(100_000) as i64).take(COUNT).collect();
    let rows = [("12.375", one), ("three places", many)];
    rows.iter().filter(|row| format!("i64/lowest_from_decimal/{}", row.0).contains(filter)).map(|row| reading_row(row.0, &row.1)).sum()
}

fn reading_row(kind: &str, numers: &[i64]) -> usize {
    let texts: Vec<_> = numers.iter().map(|n| thousandths(*n)).collect();
    run(
        (&texts, &texts, &texts),
        |x| Reduced::<i64>::from_decimal(&x.decimal),
        |x| x.fraction.parse::<bakhsney::Ratio<i64>>(),
        |x| x.decimal.parse::<f64>(),
        &format!("i64\tfrom_decimal\t{kind}"),
        goal("from_decimal", kind),
    );
    let differs = |x: &Written| {
        let fields = Reduced::<i64>::from_decimal(&x.decimal).map(|read| read.into_raw()).ok();
        fields != x.fraction.parse().ok().map(bakhsney::Ratio::into_raw) || x.decimal.parse() != Ok(x.float)
    };
    texts.iter().filter(|x| differs(x)).count()
}

fn main() {
    let filter = std::env::args().nth(1).unwrap_or_default();
    let differing = rows!(i32, &filter)
        + rows!(i64, &filter)
        + rows!(i128, &filter)
        + decimal_row(&filter)
        + reading_rows(&filter)
        + fitting_rows!(&filter, i8 i16 i32 i64 i128 isize u8 u16 u32 u64 u128 usize);
    if differing > 0 {
        eprintln!("{differing} results differ");
        std::process::exit(1);
    }
}
