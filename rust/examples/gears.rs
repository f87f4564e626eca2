//! A table of gears. Pairs of wheels with the same ratio share a line, since fractions are equal if their values are:
//!
//! ```text
//! 17/12  2.98 m a turn: 34/24
//! 2      4.21 m a turn: 48/24 34/17
//! 17/8   4.47 m a turn: 34/16
//! 48/17  5.94 m a turn: 48/17
//! 17/6   5.96 m a turn: 34/12
//! 3      6.32 m a turn: 48/16
//! 4      8.42 m a turn: 48/12
//! A thread of 1.5 mm by a screw of 1/8 in takes 60/127.
//! With at most 100 teeth it is 43/91, too long by 1/5460.
//! ```
use bakhsney::{Reduced64, Rounding};
use std::collections::BTreeMap;

/// The ratio of each pair of wheels, from the least one on.
fn pairs() -> Option<BTreeMap<Reduced64, Vec<String>>> {
    let mut pairs: BTreeMap<Reduced64, Vec<String>> = BTreeMap::new();
    for front in [48, 34] {
        for back in [12, 16, 17, 24] {
            pairs.entry(Reduced64::checked_new(front, back)?).or_default().push(format!("{front}/{back}"));
        }
    }
    Some(pairs)
}

/// The ratio for the thread, the nearest one with at most so many teeth, and by which part of the thread it is too long.
fn thread(most: i64) -> Option<[Reduced64; 3]> {
    let inch = Reduced64::from_decimal("25.4").ok()?;
    let ratio = Reduced64::from_decimal("1.5").ok()?.checked_div(inch.checked_div(8)?)?;
    let nearest = ratio.nearest(most)?;
    Some([ratio, nearest, nearest.checked_sub(ratio)?.checked_div(ratio)?])
}

fn main() {
    let wheel = Reduced64::from_decimal("2.105").expect("it is a decimal, and fits");
    for (ratio, pairs) in pairs().expect("no wheel has 0 teeth") {
        // 6.315 is a tie, and 6.32 has the even digit.
        let turn = ratio.checked_mul_round_to(wheel, 100, Rounding::HalfEven).expect("the metres fit");
        println!("{ratio:<6} {turn:.2} m a turn: {}", pairs.join(" "));
    }
    let [ratio, nearest, off] = thread(100).expect("each number fits");
    println!("A thread of 1.5 mm by a screw of 1/8 in takes {ratio}.");
    println!("With at most 100 teeth it is {nearest}, too long by {off}.");
}
