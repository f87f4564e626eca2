//! The names of the six rules of rounding, both ways, their order, and the default one.

use bakhsney::{ParseRoundingError, Ratio, Rounding};
use std::collections::{BTreeSet, HashSet};

const NAMES: [(Rounding, &str); 6] = [
    (Rounding::HalfAway, "half-away"),
    (Rounding::HalfEven, "half-even"),
    (Rounding::Down, "down"),
    (Rounding::Up, "up"),
    (Rounding::Floor, "floor"),
    (Rounding::Ceil, "ceil"),
];

#[test]
fn both_ways() {
    for (rule, name) in NAMES {
        assert_eq!(rule.to_string(), name);
        assert_eq!(name.parse(), Ok(rule));
        assert_eq!(format!("{rule:>10}|{rule:<10}|{rule:.2}"), format!("{name:>10}|{name:<10}|{}", &name[..2]));
    }
    for text in ["", "half", "half_even", "HalfEven", "Half-Even", "half even", "half-even ", " up", "UP", "ceiling", "down\n", "half-up"] {
        let refusal: ParseRoundingError = text.parse::<Rounding>().unwrap_err();
        assert_eq!(refusal.to_string(), "the text is not half-away, half-even, down, up, floor or ceil", "{text:?}");
    }
}

/// The default rule rounds as `round` of a `Ratio` and of a float.
#[test]
fn default_rule() {
    for halves in -9..=9 {
        let x = Ratio::new(halves, 2);
        assert_eq!(x.round_to(1, Rounding::default()), Some(x.round()));
        assert_eq!(x.round().to_integer(), (f64::from(halves) / 2.0).round() as i32);
    }
    assert_eq!(Rounding::default(), Rounding::HalfAway);
}

#[test]
fn keys_of_maps() {
    let rules: Vec<Rounding> = NAMES.iter().map(|row| row.0).collect();
    assert!(rules.iter().rev().copied().collect::<BTreeSet<_>>().into_iter().eq(rules.iter().copied()));
    assert_eq!(rules.iter().chain(&rules).collect::<HashSet<_>>().len(), 6);
    for (i, x) in rules.iter().enumerate() {
        for (j, y) in rules.iter().enumerate() {
            assert_eq!((x.cmp(y), x.partial_cmp(y), x == y), (i.cmp(&j), Some(i.cmp(&j)), i == j));
        }
    }
}

#[cfg(feature = "serde")]
#[test]
fn in_json() {
    for (rule, name) in NAMES {
        assert_eq!(serde_json::to_string(&rule).unwrap(), format!("\"{name}\""));
        assert_eq!(serde_json::from_str::<Rounding>(&format!("\"{name}\"")).unwrap(), rule);
    }
    let prices = std::collections::BTreeMap::from(NAMES.map(|(rule, name)| (rule, name.len())));
    let text = r#"{"half-away":9,"half-even":9,"down":4,"up":2,"floor":5,"ceil":4}"#;
    assert_eq!(serde_json::to_string(&prices).unwrap(), text);
    assert_eq!(serde_json::from_str::<std::collections::BTreeMap<Rounding, usize>>(text).unwrap(), prices);
    let refusal = |text| serde_json::from_str::<Rounding>(text).unwrap_err().to_string();
    assert_eq!(refusal("\"odd\""), "the text is not half-away, half-even, down, up, floor or ceil at line 1 column 5");
    assert_eq!(refusal("1"), "invalid type: integer `1`, expected the name of a rule of rounding at line 1 column 1");
}
