//! Times `simplest_between` and `simplest_within` of `Reduced` over `i64`. num-rational has no such calls. The ends are near to each
//! other, and their fields have up to 30 bits. It prints a markdown table: nanoseconds a call, the median and the least of its rounds.

#[path = "../random.rs"]
mod random;

use bakhsney::Reduced64;
use random::Random;
use std::hint::black_box;
use std::ops::Bound::{Excluded, Included, Unbounded};
use std::time::Instant;

/// The number of pairs of ends, and how often all of them are timed.
const COUNT: usize = 4096;
const ROUNDS: usize = 101;

/// Two ends, the lower one first. Their numerators differ by at most 8, and so do their denominators.
fn ends(random: &mut Random) -> (Reduced64, Reduced64) {
    loop {
        let numer = random.signed(1 << 30) as i64;
        let denom = random.below((1 << 30) - 16) as i64 + 9;
        let other = (numer + random.signed(9) as i64, denom + random.signed(9) as i64);
        let made = (Reduced64::checked_new(numer, denom), Reduced64::checked_new(other.0, other.1));
        if let (Some(x), Some(y)) = made {
            if x != y {
                return if x < y { (x, y) } else { (y, x) };
            }
        }
    }
}

type Call = fn(Reduced64, Reduced64) -> Option<Reduced64>;

const CALLS: [(&str, Call); 3] = [
    ("`simplest_between`", |low, high| Reduced64::simplest_between(&low, &high)),
    ("`simplest_within`, both ends included", |low, high| Reduced64::simplest_within(Included(low), Included(high))),
    ("`simplest_within`, without an upper end", |low, _| Reduced64::simplest_within(Excluded(low), Unbounded)),
];

fn nanoseconds(call: Call, pairs: &[(Reduced64, Reduced64)]) -> f64 {
    let start = Instant::now();
    for &(low, high) in pairs {
        black_box(call(black_box(low), black_box(high)));
    }
    start.elapsed().as_nanos() as f64 / pairs.len() as f64
}

fn main() {
    let mut random = Random::new(33);
    let pairs: Vec<_> = (0..COUNT).map(|_| ends(&mut random)).collect();
    println!("| Call | Median, ns | Least, ns |\n|---|---|---|");
    for (name, call) in CALLS {
        let mut times: Vec<f64> = (0..ROUNDS).map(|_| nanoseconds(call, &pairs)).collect();
        times.sort_by(|a, b| a.partial_cmp(b).expect("times are numbers"));
        println!("| {} | {:.1} | {:.1} |", name, times[ROUNDS / 2], times[0]);
    }
}
