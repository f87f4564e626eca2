//! Times `checked_mul_round` and `checked_div_round` of `Reduced` over `i64` beside `checked_mul` and `checked_div` and then `round`, where both
//! have a result. It compares the results, and prints a markdown table: nanoseconds a call, the median of its rounds, and the median of the ratios.

#[path = "../random.rs"]
mod random;

use bakhsney::{Reduced64, Rounding};
use random::Random;
use std::hint::black_box;
use std::time::Instant;

/// The number of pairs of an input, and how often all of them are timed.
const COUNT: usize = 4096;
const ROUNDS: usize = 201;

type Pair = (Reduced64, Reduced64);
type Call = fn(&Reduced64, &Reduced64) -> Option<i64>;
type Fields = fn(&mut Random) -> [i64; 4];

/// From 1 to 2^bits.
fn above(random: &mut Random, bits: u32) -> i64 {
    1 + random.below(1 << bits) as i64
}

/// From 1 - 2^bits to 2^bits - 1.
fn signed(random: &mut Random, bits: u32) -> i64 {
    random.signed(1 << bits) as i64
}

/// Fields of any length up to 62 bits.
fn any(random: &mut Random) -> [i64; 4] {
    let mut bits = || random.below(62) as u32 + 1;
    let [a, b, c, d] = [bits(), bits(), bits(), bits()];
    [signed(random, a), above(random, b), signed(random, c), above(random, d)]
}

/// The fields of two fractions whose products do not fit, but whose product does: `uv/(ws)` times `wt/(ur)`.
fn crossed(random: &mut Random) -> [i64; 4] {
    let [u, w, s, r] = [(); 4].map(|_| above(random, 31) - 1).map(|n| n.max(1));
    [u * signed(random, 31), w * s, w * signed(random, 31), u * r]
}

/// The same with few steps to each common divisor: `uk/w` times `wl/u`, where `k` and `l` are small.
fn inverse(random: &mut Random) -> [i64; 4] {
    let (u, w) = (above(random, 60), above(random, 60));
    [u * above(random, 2), w, w * above(random, 2), u]
}

const INPUTS: [(&str, Fields); 8] = [
    ("fields up to 12", |r| [r.signed(13) as i64, 1 + r.below(12) as i64, r.signed(13) as i64, 1 + r.below(12) as i64]),
    ("fields of 10 bits", |r| [signed(r, 10), above(r, 10), signed(r, 10), above(r, 10)]),
    ("fields of 31 bits", |r| [signed(r, 31), above(r, 30), signed(r, 31), above(r, 30)]),
    ("two whole numbers", |r| [signed(r, 31), 1, signed(r, 31), 1]),
    ("an amount and a share in thousandths", |r| [signed(r, 40), 1, r.below(1000) as i64, 1000]),
    ("fields of any length", any),
    ("the products of the fields do not fit, but their lowest terms do", crossed),
    ("the same, with few steps to each gcd", inverse),
];

const CALLS: [(&str, Call, Call); 2] = [
    ("product", |x, y| x.checked_mul_round(y, Rounding::HalfAway), |x, y| x.checked_mul(y).map(|z| *z.round().numer())),
    ("quotient", |x, y| x.checked_div_round(y, Rounding::HalfAway), |x, y| x.checked_div(y).map(|z| *z.round().numer())),
];

/// Pairs whose product has a result.
fn pairs(fields: Fields) -> Vec<Pair> {
    let mut random = Random::new(34);
    let mut pair = || {
        let [a, b, c, d] = fields(&mut random);
        let (x, y) = (Reduced64::checked_new(a, b)?, Reduced64::checked_new(c, d)?);
        x.checked_mul(y).map(|_| (x, y))
    };
    std::iter::repeat_with(|| pair()).flatten().take(COUNT).collect()
}

/// The pairs with the right side turned over, so that the quotient is that product. A side that is 0 has none.
fn turned(pairs: &[Pair]) -> Vec<Pair> {
    pairs.iter().filter_map(|&(x, y)| Some((x, y.checked_recip()?))).collect()
}

fn nanoseconds(call: Call, pairs: &[Pair]) -> f64 {
    let start = Instant::now();
    for (x, y) in pairs {
        black_box(call(black_box(x), black_box(y)));
    }
    start.elapsed().as_nanos() as f64 / pairs.len() as f64
}

fn median(mut times: Vec<f64>) -> f64 {
    times.sort_by(|a, b| a.partial_cmp(b).expect("times are numbers"));
    times[times.len() / 2]
}

fn main() {
    println!("| Input | Result | Rounded at once, ns | Exact, then rounded, ns | Ratio |\n|---|---|---|---|---|");
    for (input, fields) in INPUTS {
        let products = pairs(fields);
        let quotients = turned(&products);
        for ((result, rounded, exact), pairs) in CALLS.into_iter().zip([products, quotients]) {
            assert!(pairs.iter().all(|(x, y)| rounded(x, y) == exact(x, y)), "{input}: the results differ");
            let times: Vec<_> = (0..ROUNDS).map(|_| (nanoseconds(rounded, &pairs), nanoseconds(exact, &pairs))).collect();
            let (at_once, then) = (times.iter().map(|t| t.0).collect(), times.iter().map(|t| t.1).collect());
            let ratio = median(times.iter().map(|t| t.0 / t.1).collect());
            println!("| {input} | {result} | {:.1} | {:.1} | {ratio:.2} |", median(at_once), median(then));
        }
    }
}
