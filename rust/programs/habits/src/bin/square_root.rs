//! Newton's method for the square root of two, exactly.

use num_rational::BigFraction;
use num_traits::{One, Signed, ToPrimitive};

fn square_root(of: &BigFraction, steps: usize) -> BigFraction {
    let mut x = of.clone();
    for _ in 0..steps {
        x = (&x + of / &x) / 2;
    }
    x
}

fn main() {
    let two = BigFraction::from(2);
    let x = square_root(&two, 3);
    assert_eq!(x, BigFraction::new(577, 408));

    let error = &x * &x - &two;
    assert!(error > 0);
    assert!(error < BigFraction::one());
    assert_eq!(error.recip(), 166_464);

    let b = &x + 1;
    assert_eq!((&b - 2).recip(), BigFraction::new(408, 169));

    let x = square_root(&two, 6);
    println!("{x}");
    assert_eq!(x.to_string(), "1572584048032918633353217/1111984844349868137938112");
    assert_eq!(x.to_f64(), Some(2f64.sqrt()));
    assert!((&x - &square_root(&two, 5)).abs() < BigFraction::from(10).pow(-23));

    let dozen = BigFraction::from(12);
    let gross = &dozen * &dozen;
    assert!(gross == 144);
    // Typed: `assert!(gross >= 144 && 145 > gross && gross != 12);`. A number is on the right of a comparison, or `145 > text.parse().unwrap()` would name no type.
    assert!(gross >= 144 && gross < 145 && gross != 12);
    assert_eq!(gross, dozen.pow(2));

    let mut sum = BigFraction::from(0);
    for n in 1..=40 {
        sum += BigFraction::from(1) / n;
    }
    assert!(sum > 4 && sum < 5);
    println!("{}", sum.floor());
}
