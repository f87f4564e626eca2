//! The values of each error type are told apart by `==`, by hash and by text. A number that is too great is told from what is no number.

use bakhsney::{DecimalRefusal, Ratio, RatioErrorKind, Rational32, Reduced, SplitRefusal, TextRefusal, WeightRefusal};
use std::collections::hash_map::DefaultHasher;
use std::collections::HashSet;
use std::error::Error;
use std::fmt::Debug;
use std::hash::{Hash, Hasher};

fn hash_of(x: impl Hash) -> u64 {
    let mut hasher = DefaultHasher::new();
    x.hash(&mut hasher);
    hasher.finish()
}

/// All values of a type: each is equal to its clone alone, and so are the hashes.
fn told_apart<K: Clone + Debug + Eq + Hash>(all: &[K]) {
    for (i, x) in all.iter().enumerate() {
        for (j, y) in all.iter().enumerate() {
            assert_eq!((x == &y.clone(), hash_of(x) == hash_of(y.clone())), (i == j, i == j), "{x:?} {y:?}");
        }
    }
    assert_eq!(all.iter().chain(all).collect::<HashSet<_>>().len(), all.len());
}

/// All errors of a type. Each has a text of its own.
fn errors<E: Error + Clone + Eq + Hash>(all: &[E]) {
    told_apart(all);
    let texts: HashSet<String> = all.iter().map(E::to_string).collect();
    assert!(texts.len() == all.len() && !texts.contains(""), "{texts:?}");
}

#[test]
fn each_type() {
    errors(&["x", "1/0"].map(|text| text.parse::<Rational32>().unwrap_err()));
    errors(&[DecimalRefusal::NotDecimal, DecimalRefusal::NotHeld]);
    errors(&[TextRefusal::NotNumber, TextRefusal::ZeroDenominator, TextRefusal::NotHeld]);
    errors(&[SplitRefusal::Length, SplitRefusal::BelowZero, SplitRefusal::NotHeld, SplitRefusal::NotOne]);
    errors(&[WeightRefusal::Length, WeightRefusal::BelowZero, WeightRefusal::NotHeld, WeightRefusal::AllZero]);
    told_apart(&[RatioErrorKind::ParseError, RatioErrorKind::ZeroDenominator]);
}

#[cfg(feature = "alloc")]
#[test]
fn each_type_with_memory() {
    use bakhsney::BigTextRefusal::{NoMemory, NotDecimal, NotNumber, TooLong, ZeroDenominator};
    errors(&[NotDecimal, NotNumber, ZeroDenominator, TooLong, NoMemory]);
}

/// A text, and what `from_decimal` and `from_text` over `i8` say of it.
#[test]
fn too_great_a_number_is_no_text_without_one() {
    use TextRefusal::{NotHeld, NotNumber, ZeroDenominator};
    let rows = [
        ("128", Some(DecimalRefusal::NotHeld), Some(NotHeld)),
        ("-129", Some(DecimalRefusal::NotHeld), Some(NotHeld)),
        ("0.0078125", Some(DecimalRefusal::NotHeld), Some(NotHeld)), // 1/128
        ("1e1000000000", Some(DecimalRefusal::NotHeld), Some(NotHeld)),
        ("200/3", Some(DecimalRefusal::NotDecimal), Some(NotHeld)),
        ("1/0", Some(DecimalRefusal::NotDecimal), Some(ZeroDenominator)),
        ("12,5", Some(DecimalRefusal::NotDecimal), Some(NotNumber)),
        ("", Some(DecimalRefusal::NotDecimal), Some(NotNumber)),
        ("200/400", Some(DecimalRefusal::NotDecimal), None),
        ("-128", None, None),
    ];
    for (text, decimal, typed) in rows {
        assert_eq!((Reduced::<i8>::from_decimal(text).err(), Reduced::<i8>::from_text(text).err()), (decimal, typed), "{text}");
        assert_eq!((Ratio::<i8>::from_decimal(text).err(), Ratio::<i8>::from_text(text).err()), (decimal, typed), "{text}");
        assert_eq!(Ratio::<i8>::from_text(text).ok(), Reduced::from_text(text).ok().map(Ratio::from), "{text}");
    }
    let told = [DecimalRefusal::NotHeld.to_string(), TextRefusal::NotHeld.to_string()];
    assert!(told.iter().all(|text| text.contains("do not fit the type")), "{told:?}");
}
