//! Calls of the plain Rust crate's `Reduced` that take the place of several steps, each timed beside these steps. Where the steps have a result, the
//! call must have the same one. Its rows have the columns of the program `compare`; in `ratio_ns` is the time of the steps, and in `of_ratio` the
//! call's part of it.

// Not all kinds of pairs are timed here.
#[allow(dead_code)]
#[path = "../kinds.rs"]
mod kinds;
#[path = "../random.rs"]
mod random;
#[path = "../timing.rs"]
mod timing;

use bakhsney::proved::num_rational::{self, Reduced};
use bakhsney::Rounding;
use num_bigint::BigInt;
use num_integer::Integer;
use random::Random;
use std::hint::black_box;
use timing::times;

/// The number of inputs of each kind.
const COUNT: usize = 4096;

/// A call may take at most this part of the time of the steps, if it has a goal.
fn goal(call: &str, kind: &str) -> Option<f64> {
    match call {
        "checked_product_of" if kind != "five rates, a step does not fit" => Some(1.3),
        "checked_mul_round" if kind == "small" || kind == "half" => Some(1.0),
        "split" => Some(1.0),
        _ => None,
    }
}

/// Times the call and the steps on the same inputs, and prints the row. It returns how many results differ, where the steps have one.
fn row<I, R: PartialEq>(inputs: &[I], name: [&str; 3], call: impl Fn(&I) -> Option<R>, steps: impl Fn(&I) -> Option<R>) -> usize {
    let mut first = || inputs.iter().for_each(|input| drop(black_box(call(black_box(input)))));
    let mut second = || inputs.iter().for_each(|input| drop(black_box(steps(black_box(input)))));
    let both = times(inputs.len(), &mut first, &mut second);
    let most = goal(name[1], name[2]);
    let (goal, verdict) = most.map_or((String::new(), ""), |most| (format!("{most:.1}"), if both.ratio <= most { "met" } else { "missed" }));
    let given = |way: &dyn Fn(&I) -> Option<R>| inputs.iter().filter(|input| way(input).is_some()).count();
    let (ours, theirs) = (given(&call), given(&steps));
    println!(
        "Steps\t{}\t{}\t{}\t\t{:.1}\t{:.1}\t\t\t\t{:.2}\t{goal}\t{verdict}\t{theirs}\t{}\t{}",
        name[0],
        name[1],
        name[2],
        both.ours,
        both.theirs,
        both.ratio,
        ours - theirs.min(ours),
        inputs.len() - ours
    );
    inputs.iter().filter(|input| steps(input).is_some_and(|wanted| call(input) != Some(wanted))).count()
}

/// The remainder by big integers, if its lowest terms fit.
fn big_remainder(f: &[i128; 4]) -> Option<(i128, i128)> {
    let [a, b, c, d] = f.map(BigInt::from);
    let (left, right, denom) = (a * &d, c * &b, b * d);
    let numer = left % right;
    let divisor = numer.gcd(&denom);
    Some((i128::try_from(numer / &divisor).ok()?, i128::try_from(denom / divisor).ok()?))
}

macro_rules! rows {
    ($t:ty, $filter:expr) => {{
        type Pair = (Reduced<$t>, Reduced<$t>);
        let (name, bits) = (stringify!($t), <$t>::BITS);
        let mut random = Random::new(20_240_229);
        let mut differing = 0;
        let wanted = |call: &str, kind: &str| format!("{name}/{call}/{kind}").contains($filter);
        let made = |n: i128, d: i128| Reduced::<$t>::checked_new(n as $t, d as $t).expect("a positive denominator");

        // Five rates of a fifth of the type's width, so that all steps fit.
        let mut rate = |bits: u32| made(1 + random.below((1 << bits) - 1) as i128, 1 + random.below((1 << bits) - 1) as i128);
        let apart: Vec<[Reduced<$t>; 5]> = (0..COUNT).map(|_| [(); 5].map(|_| rate(bits / 5))).collect();
        // Each denominator is the numerator before it, as in a chain of units. In the order 1, 3, 5, 2, 4 a step seldom fits.
        let chain = |random: &mut Random| {
            let mut units = [0; 6];
            units.fill_with(|| (1 << (bits / 2 - 2)) + random.below(1 << (bits / 2 - 2)) as i128);
            [0, 1, 2, 3, 4].map(|i| made(units[i + 1], units[i]))
        };
        let mut random = Random::new(20_240_229);
        let chained: Vec<[Reduced<$t>; 5]> = (0..COUNT).map(|_| chain(&mut random)).collect();
        let product = |rates: &[Reduced<$t>; 5]| Reduced::checked_product_of(rates, &mut [0; 10]).map(|x| x.into_raw());
        let one_by_one = |rates: &[Reduced<$t>; 5]| {
            rates.iter().try_fold(Reduced::one(), |total, rate| total.checked_mul(rate)).map(|x| x.into_raw())
        };
        let turned = |rates: &[Reduced<$t>; 5]| product(&[0, 2, 4, 1, 3].map(|i| Reduced::clone(&rates[i])));
        for (kind, rates) in [("five rates", &apart), ("five rates in a chain", &chained)] {
            if wanted("checked_product_of", kind) {
                differing += row(rates, [name, "checked_product_of", kind], product, one_by_one);
            }
        }
        if wanted("checked_product_of", "five rates, a step does not fit") {
            differing += row(&chained, [name, "checked_product_of", "five rates, a step does not fit"], turned, one_by_one);
        }

        for kind in ["small", "half", "full"] {
            let fields = kinds::pairs(kind, bits, COUNT, &mut random);
            let pairs: Vec<Pair> = fields.iter().map(|f| (made(f[0], f[1]), made(f[2], f[3]))).collect();
            if wanted("checked_mul_round", kind) {
                let rounded = |p: &Pair| p.0.checked_mul_round(&p.1, Rounding::HalfAway);
                let twice = |p: &Pair| p.0.checked_mul(&p.1).map(|x| x.round().to_integer());
                differing += row(&pairs, [name, "checked_mul_round", kind], rounded, twice);
            }
            if wanted("checked_rem", kind) {
                let rest = |p: &Pair| p.0.checked_rem(&p.1).map(|x| x.into_raw());
                let less = |p: &Pair| p.0.checked_sub(p.0.checked_div(&p.1)?.trunc().checked_mul(&p.1)?).map(|x| x.into_raw());
                differing += row(&pairs, [name, "checked_rem", kind], rest, less);
            }
            if wanted("checked_gcd", kind) {
                let divisor = |p: &Pair| p.0.checked_gcd(&p.1).map(|x| x.into_raw());
                let by_fields = |p: &Pair| Some((p.0.numer().gcd(p.1.numer()), checked_lcm(*p.0.denom(), *p.1.denom())?));
                differing += row(&pairs, [name, "checked_gcd", kind], divisor, by_fields);
            }
            if wanted("checked_lcm", kind) {
                let multiple = |p: &Pair| p.0.checked_lcm(&p.1).map(|x| x.into_raw());
                let by_fields = |p: &Pair| Some((checked_lcm(*p.0.numer(), *p.1.numer())?.checked_abs()?, p.0.denom().gcd(p.1.denom())));
                differing += row(&pairs, [name, "checked_lcm", kind], multiple, by_fields);
            }
        }
        differing
    }};
}

/// The least common multiple by num-integer's gcd.
fn checked_lcm<T: Integer + num_traits::CheckedMul + Copy>(x: T, y: T) -> Option<T> {
    let divisor = x.gcd(&y);
    if divisor.is_zero() { Some(divisor) } else { (x / divisor).checked_mul(&y) }
}

/// Remainders of 128 bits beside those by big integers.
fn big_rows(filter: &str) -> usize {
    let kind = "full, by big integers";
    if !format!("i128/checked_rem/{kind}").contains(filter) {
        return 0;
    }
    let fields = kinds::pairs("full", 128, COUNT, &mut Random::new(20_240_229));
    let pairs: Vec<_> = fields.iter().map(|f| (*f, [(f[0], f[1]), (f[2], f[3])].map(|x| Reduced::checked_new(x.0, x.1).expect("it fits")))).collect();
    row(&pairs, ["i128", "checked_rem", kind], |p| p.1[0].checked_rem(&p.1[1]).map(|x| x.into_raw()), |p| big_remainder(&p.0))
}

/// An amount and its shares.
type Bill = (i64, [Reduced<i64>; SHARES]);

const SHARES: usize = 100;

/// Bills whose shares have one denominator before they are reduced, so that each product fits.
fn bills() -> Vec<Bill> {
    let mut random = Random::new(20_240_229);
    let bill = |_| {
        let mut weights = [0i64; SHARES];
        weights.fill_with(|| 1 + random.below(1 << 20) as i64);
        let total: i64 = weights.iter().sum();
        (1 + random.below(1 << 30) as i64, weights.map(|weight| Reduced::checked_new(weight, total).expect("it fits")))
    };
    (0..COUNT / SHARES).map(bill).collect()
}

/// The mark after one more share, by a product that is formed.
fn next_mark(amount: i64, sum: &Reduced<i64>, share: &Reduced<i64>) -> Option<(Reduced<i64>, i64)> {
    let sum = sum.checked_add(share)?;
    let mark = sum.checked_mul(amount)?.round().to_integer();
    Some((sum, mark))
}

/// The parts by products that are formed. As in the library, a first walk looks whether each step fits.
fn split_by_steps((amount, shares): &Bill) -> Option<[i64; SHARES]> {
    shares.iter().try_fold(Reduced::zero(), |sum, share| next_mark(*amount, &sum, share).map(|next| next.0))?;
    let (mut sum, mut mark, mut parts) = (Reduced::zero(), 0, [0; SHARES]);
    for (part, share) in parts.iter_mut().zip(shares) {
        let (next, next_mark) = next_mark(*amount, &sum, share)?;
        *part = next_mark - mark;
        (sum, mark) = (next, next_mark);
    }
    Some(parts)
}

/// Splits of an amount by many shares.
fn split_rows(filter: &str) -> usize {
    let kind = "100 shares";
    if !format!("i64/split/{kind}").contains(filter) {
        return 0;
    }
    let split = |bill: &Bill| {
        let mut parts = [0; SHARES];
        num_rational::split(bill.0, &bill.1, &mut parts).ok().map(|()| parts)
    };
    row(&bills(), ["i64", "split", kind], split, split_by_steps)
}

fn main() {
    let filter = std::env::args().nth(1).unwrap_or_default();
    let differing = rows!(i32, &filter) + rows!(i64, &filter) + rows!(i128, &filter) + big_rows(&filter) + split_rows(&filter);
    if differing > 0 {
        eprintln!("{differing} results differ");
        std::process::exit(1);
    }
}
