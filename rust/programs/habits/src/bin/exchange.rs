//! Payments in four currencies: the total is exact, and rounded once.

use num_rational::{BigFraction, Ratio, Reduced64, Total};
use std::collections::HashMap;

fn main() {
    let rates: HashMap<&str, Reduced64> = [
        ("EUR", 1.into()),
        ("USD", Reduced64::new(9137, 10_000)),
        ("JPY", Reduced64::new(61, 10_000)),
        // Typed: `("CHF", "1.0642".parse().unwrap()),`. As num-rational's, `parse` takes no decimal.
        ("CHF", Reduced64::from_decimal("1.0642").unwrap()),
    ]
    .into_iter()
    .collect();
    let payments = [("USD", 1999), ("JPY", 4500), ("EUR", 350), ("CHF", 12_000), ("USD", -99)];

    let mut total = Total::new();
    for (currency, amount) in payments {
        total += rates[currency] * amount;
    }
    let again: Total = payments.iter().map(|&(currency, amount)| rates[currency] * amount).sum();
    assert_eq!(total, again);
    assert_eq!(total, Reduced64::new(372_097, 25));

    let euro = Reduced64::try_from(&total).unwrap();
    println!("{euro} euros, {} whole", euro.round());
    assert_eq!(euro.to_integer(), 14_883);

    let mut harmonic = Total::default();
    for n in 1..=60i64 {
        harmonic += Ratio::new(1, n);
    }
    for n in 1..=60i64 {
        harmonic -= Ratio::new(1, n);
    }
    assert_eq!(harmonic, 0);

    let mut third = Total::from(Reduced64::new(1, 3));
    third += 1;
    assert_eq!(third.to_string(), "4/3");
    // Typed: `assert_eq!(BigFraction::from(third), BigFraction::new(4, 3));`. A `Total` moves, and a line below needs it.
    assert_eq!(BigFraction::from(&third), BigFraction::new(4, 3));

    let parts: Total = vec![Reduced64::new(1, 2), Reduced64::new(1, 6)].into_iter().collect();
    let mut all = parts.clone();
    all += &third;
    assert_eq!(Reduced64::try_from(all), Ok(2.into()));
}
