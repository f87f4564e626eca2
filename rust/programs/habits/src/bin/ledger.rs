//! A ledger as JSON: fractions as texts, as values and as keys.

use num_rational::{BigFraction, Ratio, Reduced64};
use serde::{Deserialize, Serialize};
use std::collections::BTreeMap;

#[derive(Debug, Clone, PartialEq, Serialize, Deserialize)]
struct Entry {
    share: Reduced64,
    pair: Ratio<i64>,
    // Typed: `#[serde(with = "num_rational::serde::text")]`. A module called `serde` would stand in the way of the crate where `use num_rational::*` is.
    #[serde(with = "num_rational::text")]
    price: Ratio<i64>,
    // Typed: `#[serde(with = "num_rational::serde::decimal")]`. The same.
    #[serde(with = "num_rational::decimal")]
    weight: Reduced64,
    total: BigFraction,
}

fn main() -> Result<(), serde_json::Error> {
    let entry = Entry {
        share: Reduced64::new(1, 3),
        pair: Ratio::new(2, 3),
        price: Ratio::new(7, 2),
        weight: Reduced64::new(5, 4),
        total: BigFraction::new(7, 9),
    };
    let json = serde_json::to_string(&entry)?;
    println!("{json}");
    assert!(json.contains(r#""pair":[2,3]"#));
    assert!(json.contains(r#""price":"7/2""#));
    assert!(json.contains(r#""weight":"1.25""#));
    assert_eq!(serde_json::from_str::<Entry>(&json)?, entry);

    let zero = r#"{"share":[1,0],"pair":[2,3],"price":"7/2","weight":"1.25","total":[7,9]}"#;
    assert!(serde_json::from_str::<Entry>(zero).is_err());

    let mut by_size = BTreeMap::new();
    // Typed: `by_size.insert(Reduced64::new(3, 8), "spanner");`. As in num-rational, serde has a pair, and a key of JSON is a text.
    by_size.insert(Reduced64::new(3, 8).to_string(), "spanner");
    // Typed: `by_size.insert(Reduced64::new(1, 4), "screw");`. The same.
    by_size.insert(Reduced64::new(1, 4).to_string(), "screw");
    assert_eq!(serde_json::to_string(&by_size)?, r#"{"1/4":"screw","3/8":"spanner"}"#);
    // Typed: `let again: BTreeMap<Reduced64, &str> = serde_json::from_str(r#"{"1/4":"screw","3/8":"spanner"}"#)?;`. The same.
    let again: BTreeMap<String, &str> = serde_json::from_str(r#"{"1/4":"screw","3/8":"spanner"}"#)?;
    assert_eq!(again, by_size);
    Ok(())
}
