//! Four kinds of number in one expression.

use num_rational::{BigFraction, Ratio, Reduced64};
use num_traits::{CheckedAdd, Euclid, ToPrimitive};
use std::convert::TryFrom;

fn main() {
    let third = Ratio::new(1i64, 3);
    let half = Reduced64::new(1, 2);
    let big = BigFraction::from(10).pow(30);

    // Typed: `assert_eq!(half + third, Reduced64::new(5, 6));`. A `Ratio` may have the denominator 0, so it is converted by `try_from`.
    assert_eq!(half + Reduced64::try_from(third).unwrap(), Reduced64::new(5, 6));
    // Typed: `assert_eq!(third * half, Ratio::new(1, 6));`. A `Ratio` has the operators of num-rational, and takes no `Reduced`.
    assert_eq!(third * Ratio::from(half), Ratio::new(1, 6));
    // Typed: `assert_eq!(2 * half + 1 - third, Ratio::new(5, 3));`. A `Ratio` may have the denominator 0, so it is converted by `try_from`.
    assert_eq!(Ratio::from(2 * half + 1) - third, Ratio::new(5, 3));
    let sum = &big + half + third - 1;
    assert_eq!(sum.to_string(), "5999999999999999999999999999999/6");
    // Typed: `assert!(sum < big && big > half && third < sum);`. A `BigFraction` is on the left of a comparison, or `third < text.parse().unwrap()` would name no type.
    assert!(sum < big && big > half && sum > third);
    assert_eq!(sum.to_integer().to_string(), "999999999999999999999999999999");
    assert_eq!(Reduced64::try_from(&sum - &big).unwrap(), Reduced64::new(-1, 6));
    assert!(Reduced64::try_from(sum.clone()).is_err());
    assert_eq!((half / 3).to_integer(), 0);

    let tenth = BigFraction::try_from(0.1).unwrap();
    assert_eq!(tenth.to_string(), "3602879701896397/36028797018963968");
    assert_eq!(Reduced64::try_from(0.125), Ok(Reduced64::new(1, 8)));
    assert_eq!(Ratio::<i64>::try_from(-2.5), Ok(Ratio::new(-5, 2)));
    assert!(BigFraction::try_from(f64::NAN).is_err());
    assert!(Reduced64::try_from(1e300).is_err());
    assert_eq!(tenth.to_f64(), Some(0.1));

    assert_eq!(format!("{:e}", Ratio::new(1500i64, 7)), "1.5e3/7e0");
    assert_eq!(format!("{:e} {:e}", BigFraction::from(1500), half), "1.5e3 1e0/2e0");
    assert_eq!(format!("{half} {half:>6} {:<6}|", third), "1/2    1/2 1/3   |");

    let hour = Reduced64::new(-7, 2).rem_euclid(&12.into());
    assert_eq!(hour, Reduced64::new(17, 2));
    assert_eq!(Ratio::new(-7i64, 2).div_euclid(&Ratio::from(12)), Ratio::from(-1));
    assert_eq!(BigFraction::new(-7, 2).rem_euclid(&BigFraction::from(3)), BigFraction::new(5, 2));
    assert_eq!(half.checked_add(&Reduced64::new(i64::MAX, 1)), None);
    // Typed: `println!("{sum} {tenth} {hour} {}", half.max(third.into()));`. A `Ratio` may have the denominator 0, so it is converted by `try_from`.
    println!("{sum} {tenth} {hour} {}", half.max(third.try_into().unwrap()));
}
