//! Times what it takes to add up a column of 100,000 fractions over `i64`: by a `Total`, by `checked_sum` of `Reduced`, by a fold of its
//! `checked_add`, by num-rational's `+`, and by `mpq_add` of GMP, which has fractions of any length. A line has nanoseconds a value, each the
//! median of the rounds. The five take turns. A second table has what a read of a total takes, and a third one has columns over `i128`.
mod gmp;

use bakhsney::{Reduced, Reduced64, Rounding, Total};
use num_rational::Ratio;
use std::hint::black_box;
use std::time::Instant;

const VALUES: usize = 100_000;
const ROUNDS: usize = 41;

/// The numbers of SplitMix64 from this seed on.
struct Random(u64);

impl Random {
    fn below(&mut self, bound: u64) -> u64 {
        self.0 = self.0.wrapping_add(0x9e37_79b9_7f4a_7c15);
        let mut word = self.0;
        word = (word ^ (word >> 30)).wrapping_mul(0xbf58_476d_1ce4_e5b9);
        word = (word ^ (word >> 27)).wrapping_mul(0x94d0_49bb_1331_11eb);
        (word ^ (word >> 31)) % bound
    }
}

/// Fractions from -10 to 10, with a denominator that `denominator` gives. They are in lowest terms with just this denominator.
fn column(random: &mut Random, denominator: impl Fn(&mut Random) -> i64) -> Vec<Reduced64> {
    (0..VALUES)
        .map(|_| {
            let denom = denominator(random);
            let first = random.below(20 * denom as u64 + 1) as i64 - 10 * denom;
            let with_numerator = |numer| Reduced64::checked_new(numer, denom).filter(|x| *x.denom() == denom);
            (first..).find_map(with_numerator).expect("one of so many numerators is coprime")
        })
        .collect()
}

/// The sum by `checked_add`; from 0 on again where a step does not fit.
fn sum_in_steps(values: &[Reduced64]) -> Reduced64 {
    values.iter().fold(Reduced64::ZERO, |sum, x| sum.checked_add(x).unwrap_or(Reduced64::ZERO))
}

/// How long one of so many steps of this work takes.
fn nanoseconds<R>(steps: usize, work: impl FnOnce() -> R) -> f64 {
    let start = Instant::now();
    black_box(work());
    start.elapsed().as_nanos() as f64 / steps as f64
}

fn median(mut times: Vec<f64>) -> f64 {
    times.sort_by(f64::total_cmp);
    times[times.len() / 2]
}

/// The rounds of a way that takes more than a microsecond a value.
const SLOW_ROUNDS: usize = 3;

/// The ways to add up a column. The last one is left out where a sum would take minutes.
fn show(name: &str, values: &[Reduced64], with_gmp: bool) {
    let theirs: Vec<Ratio<i64>> = values.iter().map(|x| Ratio::new_raw(*x.numer(), *x.denom())).collect();
    let long: Vec<gmp::Fraction> = values.iter().map(|x| gmp::Fraction::new(*x.numer(), *x.denom())).collect();
    let by_total = || nanoseconds(VALUES, || values.iter().sum::<Total<i64>>());
    let by_list = || nanoseconds(VALUES, || Reduced64::checked_sum(values));
    let in_steps = || nanoseconds(VALUES, || sum_in_steps(values));
    let by_crate = || nanoseconds(VALUES, || theirs.iter().fold(Ratio::new_raw(0, 1), |sum: Ratio<i64>, x| sum + x));
    let by_gmp = || nanoseconds(VALUES, || gmp::sum(&long));
    let ways: [&dyn Fn() -> f64; 5] = [&by_total, &by_list, &in_steps, &by_crate, &by_gmp];
    let count = if with_gmp { ways.len() } else { ways.len() - 1 };
    let mut times = vec![vec![]; count];
    for round in 0..ROUNDS {
        for (way, times) in ways.iter().zip(&mut times) {
            if round < SLOW_ROUNDS || times[0] < 1_000.0 {
                times.push(way());
            }
        }
    }
    let cells: Vec<String> = times.into_iter().map(|times| format!("{:.1}", median(times))).collect();
    println!("| {name} | {} |{}", cells.join(" | "), if with_gmp { "" } else { " |" });
}

fn show_reads(name: &str, values: &[Reduced64], rounds: usize) {
    let total: Total<i64> = values.iter().sum();
    let read = |total: &Total<i64>| nanoseconds(1, || total.sum());
    let write = |total: &Total<i64>| nanoseconds(1, || total.decimal(20, Rounding::HalfEven));
    let (sums, decimals) = (0..rounds).map(|_| (read(&total), write(&total))).unzip();
    println!("| {name} | {:.1} | {:.1} |", median(sums) / 1000.0, median(decimals) / 1000.0);
}

/// The fractions over `i128` of a column. Each time another denominator of 100 bits is taken, until there are `different` ones.
fn wide_column(random: &mut Random, different: usize) -> Vec<Reduced<i128>> {
    let wide = |random: &mut Random| i128::from(random.below(1 << 50)) << 50 | i128::from(random.below(1 << 50));
    let denominators: Vec<i128> = (0..different).map(|_| 1 << 99 | wide(random)).collect();
    let fraction = |i: usize| {
        let denom = denominators[i % different];
        let first = wide(random) - (1 << 99);
        let with_numerator = |numer| Reduced::checked_new(numer, denom).filter(|x| *x.denom() == denom);
        (first..).find_map(with_numerator).expect("one of so many numerators is coprime")
    };
    (0..WIDE_VALUES).map(fraction).collect()
}

const WIDE_VALUES: usize = 2_000;

/// The ways to add up a column over `i128`, and the read of its total.
fn show_wide(random: &mut Random, different: usize) {
    let values = wide_column(random, different);
    let long: Vec<gmp::Fraction> = values.iter().map(gmp::Fraction::of_wide).collect();
    let total: Total<i128> = values.iter().sum();
    let by_total = || nanoseconds(WIDE_VALUES, || values.iter().sum::<Total<i128>>());
    let by_gmp = || nanoseconds(WIDE_VALUES, || gmp::sum(&long));
    let read = || nanoseconds(1, || total.sum());
    let mut times = [vec![], vec![], vec![]];
    for _ in 0..7 {
        times[0].push(by_total());
        times[1].push(by_gmp());
        times[2].push(read());
    }
    let [by_total, by_gmp, read] = times.map(median);
    println!("| {different} | {by_total:.0} | {by_gmp:.0} | {:.1} |", read / 1000.0);
}

fn is_prime(n: i64) -> bool {
    (2..).take_while(|d| d * d <= n).all(|d| n % d != 0)
}

fn main() {
    let mut random = Random(7);
    println!("| Denominators | `Total`, ns a value | `checked_sum` | `checked_add` | `num-rational` | GMP |\n|---|---|---|---|---|---|");
    show("100 (cents)", &column(&mut random, |_| 100), true);
    show("12 different ones up to 60", &column(&mut random, |r| [2, 3, 4, 5, 6, 8, 10, 12, 16, 20, 24, 60][r.below(12) as usize]), true);
    show("1 to 1,000", &column(&mut random, |r| 1 + r.below(1_000) as i64), true);
    show("1 to 100,000", &column(&mut random, |r| 1 + r.below(100_000) as i64), false);
    println!("\n| Denominators | `sum`, microseconds | `decimal` with 20 places |\n|---|---|---|");
    show_reads("100 (cents)", &column(&mut random, |_| 100), ROUNDS);
    show_reads("12 different ones up to 60", &column(&mut random, |r| [2, 3, 4, 5, 6, 8, 10, 12, 16, 20, 24, 60][r.below(12) as usize]), ROUNDS);
    show_reads("each one from 1 to 1,000", &(1..=1000).filter_map(|denom| Reduced64::checked_new(1, denom)).collect::<Vec<_>>(), ROUNDS);
    let long = column(&mut random, |r| 1 << 61 | r.below(1 << 61) as i64);
    show_reads("1,000 of 62 bits", &long[..1000], ROUNDS);
    let primes: Vec<_> = (2..).filter(|n| is_prime(*n)).take(10_000).filter_map(|denom| Reduced64::checked_new(1, denom)).collect();
    show_reads("the first 10,000 primes", &primes, 5);
    show_reads("20,000 of 62 bits", &long[..20_000], 5);
    println!("\n| Different denominators of 100 bits | `Total<i128>`, ns a value | GMP | `sum`, microseconds |\n|---|---|---|---|");
    for different in [1, 10, 100, 1000] {
        show_wide(&mut random, different);
    }
}
