//! Times fractions of any size: the plain Rust crate's `BigFraction` beside num-rational's `BigRational`, GMP's `mpq` and FLINT's `fmpq`. The jobs are
//! a ledger of 1,000 prices times quantities, whose sum is short, how many prices are below their quantities, determinants of 8 by 8 and of 16 by 16
//! short fractions, the sums 1/1 + 1/2 + .. + 1/n, the powers of 2/3 up to the 200th, each from the one before, ten sums and ten products of fractions
//! whose numbers have 200 digits, and ten texts of 1,000 digits, read and printed. The first two are done over `Reduced64`, too, for what short fractions
//! cost.
//!
//!     big                   a table of microseconds for each job, medians of rounds in turn
//!     big JOB WAY TIMES     does a job so many times in one way, for a counter of instructions, and prints its result
//!     big ways JOB          the ways in which a job is done: `ours`, `theirs`, `reduced`, `gmp`, `flint`
//!
//! GMP and FLINT are there with the feature `peers`, by `peers.c`.
#[cfg(feature = "peers")]
mod peers;

use bakhsney::{BigFraction, Reduced64};
use num_rational::BigRational;
use std::fmt::{self, Display, Formatter};
use std::hint::black_box;
use std::ops::{Add, Div, Sub};
use std::str::FromStr;
use std::time::Instant;

const JOBS: [&str; 12] = [
    "ledger",
    "orders",
    "determinant_8",
    "determinant_16",
    "harmonic_20",
    "harmonic_200",
    "harmonic_1000",
    "powers",
    "long_sums",
    "long_products",
    "reading",
    "printing",
];
const ROUNDS: usize = 31;

/// The operators of the jobs over short fractions.
trait Short: Display + FromStr + PartialOrd + Sized + Add<Output = Self> {
    fn of(numer: i64, denom: i64) -> Self;

    fn times(&self, other: &Self) -> Self;
}

/// Those of the other jobs.
trait Fraction: Short + Div<Output = Self> + Sub<Output = Self> {
    fn plus(&self, other: &Self) -> Self;

    fn over(&self, other: &Self) -> Self;
}

impl Short for BigFraction {
    fn of(numer: i64, denom: i64) -> BigFraction {
        BigFraction::new(numer, denom)
    }

    fn times(&self, other: &BigFraction) -> BigFraction {
        self * other
    }
}

impl Fraction for BigFraction {
    fn plus(&self, other: &BigFraction) -> BigFraction {
        self + other
    }

    fn over(&self, other: &BigFraction) -> BigFraction {
        self / other
    }
}

impl Short for BigRational {
    fn of(numer: i64, denom: i64) -> BigRational {
        BigRational::new(numer.into(), denom.into())
    }

    fn times(&self, other: &BigRational) -> BigRational {
        self * other
    }
}

impl Fraction for BigRational {
    fn plus(&self, other: &BigRational) -> BigRational {
        self + other
    }

    fn over(&self, other: &BigRational) -> BigRational {
        self / other
    }
}

/// A fraction of 64 bits whose operators end the program where a result does not fit.
#[derive(PartialEq, PartialOrd)]
struct Fitting(Reduced64);

impl Display for Fitting {
    fn fmt(&self, f: &mut Formatter<'_>) -> fmt::Result {
        self.0.fmt(f)
    }
}

impl FromStr for Fitting {
    type Err = <Reduced64 as FromStr>::Err;

    fn from_str(text: &str) -> Result<Fitting, Self::Err> {
        text.parse().map(Fitting)
    }
}

impl Add for Fitting {
    type Output = Fitting;

    fn add(self, other: Fitting) -> Fitting {
        Fitting(self.0.checked_add(&other.0).expect("a sum that fits"))
    }
}

impl Short for Fitting {
    fn of(numer: i64, denom: i64) -> Fitting {
        Fitting(Reduced64::checked_new(numer, denom).expect("a denominator that is not 0"))
    }

    fn times(&self, other: &Fitting) -> Fitting {
        Fitting(self.0.checked_mul(&other.0).expect("a product that fits"))
    }
}

/// Prices in cents and quantities in eighths.
fn rows<F: Short>() -> Vec<(F, F)> {
    (0..1000).map(|k| (F::of(1 + k * 7919 % 100_000, 100), F::of(1 + k * 104_729 % 8_000, 8))).collect()
}

/// What the jobs begin with.
struct Data<F> {
    rows: Vec<(F, F)>,
    long: Vec<(F, F)>,
    /// Texts of 1,000 digits with their numbers.
    texts: Vec<(String, F)>,
}

impl<F: Fraction> Data<F> {
    fn new() -> Data<F> {
        Data {
            rows: rows(),
            long: (0..10).map(|k| (long(k), long(k + 10))).collect(),
            texts: (0..10).map(|k| (0..5).map(|part| digits(100 + 5 * k + part)).collect::<String>()).map(|text| (text.clone(), read(&text))).collect(),
        }
    }
}

/// A fraction whose numbers have 200 digits. `peers.c` has the same ones.
fn long<F: Fraction>(number: u64) -> F {
    read(&format!("{}/{}", digits(2 * number + 1), digits(2 * number + 2)))
}

fn read<F: Fraction>(text: &str) -> F {
    text.parse().unwrap_or_else(|_| panic!("no fraction: {text}"))
}

fn digits(seed: u64) -> String {
    let mut state = seed;
    let digits = (0..199).map(|_| {
        state = state.wrapping_mul(6_364_136_223_846_793_005).wrapping_add(1_442_695_040_888_963_407);
        char::from(b'0' + (state >> 32) as u8 % 10)
    });
    std::iter::once('7').chain(digits).collect()
}

fn ledger<F: Short>(rows: &[(F, F)]) -> F {
    rows.iter().fold(F::of(0, 1), |sum, (price, quantity)| sum + price.times(quantity))
}

fn orders<F: Short>(rows: &[(F, F)]) -> F {
    F::of(rows.iter().filter(|(price, quantity)| black_box(price) < black_box(quantity)).count() as i64, 1)
}

/// The determinant of a matrix of short fractions, by elimination.
fn determinant<F: Fraction>(size: i64) -> F {
    let mut rows: Vec<Vec<F>> = (0..size).map(|i| (0..size).map(|j| F::of((i * i * 7 + j * 13 + i * j) % 19 - 9, (i * 5 + j * 3) % 7 + 1)).collect()).collect();
    let mut product = F::of(1, 1);
    while let Some(place) = rows.iter().position(|row| row[0] != F::of(0, 1)) {
        if place % 2 == 1 {
            product = F::of(0, 1) - product;
        }
        let pivot = rows.remove(place);
        product = product.times(&pivot[0]);
        for row in &mut rows {
            let factor = row[0].over(&pivot[0]);
            *row = row.drain(1..).zip(&pivot[1..]).map(|(x, y)| x - factor.times(y)).collect();
        }
        if rows.is_empty() {
            return product;
        }
    }
    F::of(0, 1)
}

fn harmonic<F: Fraction>(most: i64) -> F {
    (1..=most).fold(F::of(0, 1), |sum, k| sum + F::of(1, k))
}

fn powers<F: Fraction>() -> F {
    let base = F::of(2, 3);
    (0..200).fold(F::of(1, 1), |power, _| power.times(&base))
}

/// Does it with each item, and returns the last result.
fn each<F: Short, T>(items: &[T], of: impl Fn(&T) -> F) -> F {
    items.iter().fold(F::of(0, 1), |_, item| black_box(of(item)))
}

/// The result of a job over short fractions, if it is one.
fn of_short<F: Short>(job: &str, rows: &[(F, F)]) -> Option<F> {
    match job {
        "ledger" => Some(ledger(rows)),
        "orders" => Some(orders(rows)),
        _ => None,
    }
}

/// The result of a job.
fn of_any<F: Fraction>(job: &str, data: &Data<F>) -> F {
    match job {
        "powers" => powers(),
        "long_sums" => each(&data.long, |(x, y)| x.plus(y)),
        "long_products" => each(&data.long, |(x, y)| x.times(y)),
        "reading" => each(&data.texts, |(text, _)| read(text)),
        "printing" => each(&data.texts, |(_, number)| F::of(number.to_string().len() as i64, 1)),
        _ => match (job.strip_prefix("harmonic_"), job.strip_prefix("determinant_")) {
            (Some(most), _) => harmonic(most.parse().expect("a number")),
            (_, Some(size)) => determinant(size.parse().expect("a number")),
            _ => panic!("no job: {job}"),
        },
    }
}

/// A way to do the jobs.
trait Way {
    fn has(&self, job: &str) -> bool;

    /// Does a job once, and returns its result.
    fn once(&self, job: &str) -> Box<dyn Display + '_>;
}

impl<F: Fraction + 'static> Way for Data<F> {
    fn has(&self, _job: &str) -> bool {
        true
    }

    fn once(&self, job: &str) -> Box<dyn Display> {
        Box::new(black_box(of_short(job, &self.rows).unwrap_or_else(|| of_any(job, self))))
    }
}

/// The rows over `Reduced64`.
struct InSixtyFourBits(Vec<(Fitting, Fitting)>);

impl Way for InSixtyFourBits {
    fn has(&self, job: &str) -> bool {
        matches!(job, "ledger" | "orders")
    }

    fn once(&self, job: &str) -> Box<dyn Display> {
        Box::new(black_box(of_short(job, &self.0).expect("a job over short fractions")))
    }
}

/// Each way with its name in the table, the first one for all jobs.
fn ways() -> Vec<(&'static str, Box<dyn Way>)> {
    vec![
        ("ours", Box::new(Data::<BigFraction>::new())),
        ("theirs", Box::new(Data::<BigRational>::new())),
        ("reduced", Box::new(InSixtyFourBits(rows()))),
        #[cfg(feature = "peers")]
        ("gmp", Box::new(peers::Peer::Gmp)),
        #[cfg(feature = "peers")]
        ("flint", Box::new(peers::Peer::Flint)),
    ]
}

/// The microseconds of one round of the job, and its result.
fn round(way: &dyn Way, job: &str) -> (f64, String) {
    let start = Instant::now();
    let result = way.once(job);
    (start.elapsed().as_nanos() as f64 / 1000.0, result.to_string())
}

fn median(mut times: Vec<f64>) -> f64 {
    times.sort_by(f64::total_cmp);
    times[times.len() / 2]
}

/// The median of each way's rounds, which come in turn, and an empty text where a way has no such job.
fn row(ways: &[(&str, Box<dyn Way>)], job: &str) -> Vec<String> {
    let expected = ways[0].1.once(job).to_string();
    let mut times = vec![vec![]; ways.len()];
    for _ in 0..ROUNDS {
        for ((name, way), times) in ways.iter().zip(&mut times).filter(|((_, way), _)| way.has(job)) {
            let (time, result) = round(way.as_ref(), job);
            assert_eq!(result, expected, "{job}: {name}");
            times.push(time);
        }
    }
    times.into_iter().map(|times| if times.is_empty() { String::new() } else { format!("{:.1}", median(times)) }).collect()
}

fn table() {
    let ways = ways();
    let names: Vec<&str> = ways.iter().map(|(name, _)| *name).collect();
    println!("| Job | {} |\n|---|{}", names.join(" | "), "---|".repeat(names.len()));
    for job in JOBS {
        println!("| {job} | {} |", row(&ways, job).join(" | "));
    }
}

fn names_of_ways(job: &str) {
    for (name, way) in ways() {
        if way.has(job) {
            println!("{name}");
        }
    }
}

fn repeated(job: &str, name: &str, times: usize) {
    let ways = ways();
    let (_, way) = ways.iter().find(|(other, _)| *other == name).unwrap_or_else(|| panic!("no way: {name}"));
    for _ in 1..times {
        way.once(job);
    }
    println!("{}", way.once(job));
}

fn main() {
    let words: Vec<String> = std::env::args().skip(1).collect();
    match words.iter().map(String::as_str).collect::<Vec<_>>()[..] {
        [] => table(),
        ["ways", job] => names_of_ways(job),
        [job, way, times] if JOBS.contains(&job) => repeated(job, way, times.parse().expect("a number of rounds")),
        _ => panic!("usage: big [ways JOB | JOB WAY TIMES]"),
    }
}
