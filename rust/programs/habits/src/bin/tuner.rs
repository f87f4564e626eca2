//! How many equal steps should an octave have? Continued fractions know.

use num_rational::Ratio;
use num_traits::{ToPrimitive, Zero};

fn convergents(mut x: Ratio<i64>, count: usize) -> Vec<Ratio<i64>> {
    let (mut n0, mut d0, mut n1, mut d1) = (0, 1, 1, 0);
    let mut found = Vec::new();
    while found.len() < count {
        let whole = x.floor().to_integer();
        let (n, d) = (whole * n1 + n0, whole * d1 + d0);
        found.push(Ratio::new(n, d));
        (n0, d0, n1, d1) = (n1, d1, n, d);
        x -= whole;
        if x.is_zero() {
            break;
        }
        x = x.recip();
    }
    found
}

fn cents(interval: Ratio<i64>) -> f64 {
    1200.0 * interval.to_f64().unwrap().log2()
}

fn main() {
    let fifth = Ratio::approximate_float(1.5f64.log2()).unwrap();
    let found = convergents(fifth, 7);
    let texts: Vec<String> = found.iter().map(|x| x.to_string()).collect();
    assert_eq!(texts.join(" "), "0 1 1/2 3/5 7/12 24/41 31/53");

    // Typed: `assert_eq!(fifth.nearest(12), Ratio::new(7, 12));`. There is none for a bound below 1.
    assert_eq!(fifth.nearest(12), Some(Ratio::new(7, 12)));
    // Typed: `assert_eq!(fifth.nearest(50), Ratio::new(24, 41));`. The same.
    assert_eq!(fifth.nearest(50), Some(Ratio::new(24, 41)));

    let pythagorean = Ratio::new(3, 2).pow(12) / Ratio::from(2).pow(7);
    assert_eq!(pythagorean, Ratio::new(531_441, 524_288));
    let syntonic = Ratio::new(3, 2).pow(4) / 4 / Ratio::new(5, 4);
    assert_eq!(syntonic, Ratio::new(81, 80));
    assert!(syntonic < pythagorean * Ratio::new(81, 80));

    for (name, interval) in [("third", Ratio::new(5, 4)), ("fifth", Ratio::new(3, 2))] {
        let steps = (cents(interval) / 100.0).round();
        println!("{name:<6} {interval:>4} {:+.2}", cents(interval) - 100.0 * steps);
    }
}
