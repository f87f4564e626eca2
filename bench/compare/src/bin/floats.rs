//! Floats of fractions, and fractions of floats, by the plain Rust crate. The program times `to_f64` and `to_f32` of `Ratio` beside
//! those of num-rational, which has none over `i128`, and `from_float` and `rationalize` of `Reduced` beside num-rational's `from_f64`. It compares
//! all results, and ends with status 1 if some differ. Its rows have the columns of the program `compare`.

#[path = "../random.rs"]
mod random;
#[path = "../timing.rs"]
mod timing;

use bakhsney::{Ratio, Reduced, Reduced64};
use num_rational::Ratio as Original;
use num_traits::{FromPrimitive, ToPrimitive};
use random::Random;
use std::hint::black_box;
use timing::{times, Times};

/// So many fractions that no processor can learn the sign of each.
const COUNT: usize = 65_536;

/// A call may take at most this part of num-rational's time.
const MOST: f64 = 1.2;

/// A call of `Reduced` may take at most this part of the time of `Ratio`'s.
const OF_RATIO: f64 = 1.1;

fn goal(row: &str) -> f64 {
    match row {
        "i32\tto_f64\tfull" => 1.1,
        "i64\tto_f64\t53 bits" => 1.0,
        "i64\tto_f64\tfull" => 1.5,
        _ => MOST,
    }
}

/// Each item by each of the two calls, timed in turn.
fn timed<A, B, X, Y>(ours: (&[A], impl Fn(&A) -> X), theirs: (&[B], impl Fn(&B) -> Y)) -> Times {
    let mut first = || ours.0.iter().for_each(|x| drop(black_box(ours.1(black_box(x)))));
    let mut second = || theirs.0.iter().for_each(|x| drop(black_box(theirs.1(black_box(x)))));
    times(ours.0.len(), &mut first, &mut second)
}

/// Numerators of either sign and denominators above 0, of up to so many bits.
fn fields(bits: u32) -> Vec<(i128, i128)> {
    let mut random = Random::new(20_240_229);
    let end = 1 << bits;
    (0..COUNT).map(|_| (random.signed(end), 1 + random.below(end - 1) as i128)).collect()
}

fn wanted(row: &str, filter: &str) -> bool {
    row.replace('\t', "/").contains(filter)
}

/// The row of a call that num-rational has, too. It returns how many results differ.
fn beside<A, B, F: PartialEq>(row: &str, filter: &str, ours: (&[A], impl Fn(&A) -> F), theirs: (&[B], impl Fn(&B) -> F)) -> usize {
    if !wanted(row, filter) {
        return 0;
    }
    let differing = ours.0.iter().zip(theirs.0).filter(|(x, y)| ours.1(x) != theirs.1(y)).count();
    let (times, goal) = (timed(ours, theirs), goal(row));
    let verdict = match times.ratio {
        ratio if ratio <= goal => "met",
        ratio if ratio <= MOST => "missed",
        _ => "above 1.2",
    };
    let both = COUNT - differing;
    println!("Ratio\t{row}\t\t{:.1}\t\t{:.1}\t\t{:.2}\t\t{goal:.1}\t{verdict}\t{both}\t0\t0", times.ours, times.theirs, times.ratio);
    differing
}

/// The row of a call that num-rational does not have.
fn alone<A, F>(row: &str, filter: &str, items: &[A], call: impl Fn(&A) -> F) {
    if wanted(row, filter) {
        let times = timed((items, &call), (items, &call));
        println!("Ratio\t{row}\t\t{:.1}\t\t\t\t\t\t\tno crate\t0\t{COUNT}\t0", times.ours);
    }
}

/// The floats of fractions of up to so many bits.
macro_rules! floats {
    ($filter:expr, $T:ident, $input:literal, $bits:literal) => {{
        let fields: Vec<_> = fields($bits).iter().map(|f| (f.0 as $T, f.1 as $T)).collect();
        let ours: Vec<_> = fields.iter().map(|f| Ratio::new_raw(f.0, f.1)).collect();
        let theirs: Vec<_> = fields.iter().map(|f| Original::new_raw(f.0, f.1)).collect();
        let row = |call| format!("{}\t{call}\t{}", stringify!($T), $input);
        beside(&row("to_f64"), $filter, (&ours, |x: &Ratio<$T>| x.to_f64()), (&theirs, |x: &Original<$T>| x.to_f64()))
            + beside(&row("to_f32"), $filter, (&ours, |x: &Ratio<$T>| x.to_f32()), (&theirs, |x: &Original<$T>| x.to_f32()))
    }};
}

fn floats_of_128_bits(filter: &str) {
    let ours: Vec<_> = fields(127).iter().map(|f| Ratio::new_raw(f.0, f.1)).collect();
    alone("i128\tto_f64\tfull", filter, &ours, |x| x.to_f64());
    alone("i128\tto_f32\tfull", filter, &ours, |x| x.to_f32());
}

/// A fraction of a float by `Reduced`, by `Ratio`, and by num-rational.
fn fraction_row(
    call: &str,
    input: &str,
    filter: &str,
    floats: &[f64],
    goal: Option<f64>,
    lowest: impl Fn(&f64) -> Option<Reduced64>,
    ratio: impl Fn(&f64) -> Option<Ratio<i64>>,
) -> usize {
    let row = format!("i64\t{call}\t{input}");
    if !wanted(&row.replace(call, &format!("lowest_{call}")), filter) {
        return 0;
    }
    let theirs = |x: &f64| Original::<i64>::from_f64(*x);
    let beside_ratio = timed((floats, &lowest), (floats, ratio));
    let beside_theirs = timed((floats, &lowest), (floats, theirs));
    let is_met = beside_ratio.ratio <= OF_RATIO && goal.map_or(true, |goal| beside_theirs.ratio <= goal);
    println!(
        "Reduced\t{row}\t\t{:.1}\t{:.1}\t{:.1}\t\t{:.2}\t{:.2}\t{}\t{}\t\t\t",
        beside_theirs.ours,
        beside_ratio.theirs,
        beside_theirs.theirs,
        beside_theirs.ratio,
        beside_ratio.ratio,
        goal.map_or(String::new(), |goal| format!("{goal:.1}")),
        if is_met { "met" } else { "missed" }
    );
    floats.iter().filter(|x| lowest(x).map(Reduced::into_raw) != theirs(x).map(Into::into)).count()
}

fn main() {
    let filter = std::env::args().nth(1).unwrap_or_default();
    let mut differing = floats!(&filter, i32, "full", 31) + floats!(&filter, i64, "53 bits", 53) + floats!(&filter, i64, "full", 63);
    floats_of_128_bits(&filter);
    // Of these floats, num-rational finds exactly the value.
    let exact: Vec<f64> = fields(20).iter().map(|f| f.0 as f64 / 1_024.0).collect();
    differing += fraction_row("from_float", "floats", &filter, &exact, None, |x| Reduced::from_float(*x), |x| Ratio::from_f64(*x));
    // Of these, it finds the simple fraction that was rounded. `rationalize` finds small ones by their reciprocals.
    for (input, factor) in [("floats", 1.0), ("small floats", 10_000.0)] {
        let simple: Vec<f64> = fields(15).iter().map(|f| f.0 as f64 / (f.1 as f64 * factor)).collect();
        differing += fraction_row("rationalize", input, &filter, &simple, Some(0.5), |x| Reduced::rationalize(*x), |x| Ratio::rationalize(*x));
    }
    if differing > 0 {
        eprintln!("{differing} results differ");
        std::process::exit(1);
    }
}
