//! `Rounding` as a text, its default, and its order and hash.
use crate::proved::ratio_decimal::rounding_rule::Rounding;
use core::cmp::Ordering;
use core::fmt;
use core::hash::{Hash, Hasher};
use core::str::FromStr;

/// The rules in their order, and their names.
const NAMES: [(Rounding, &str); 6] = [
    (Rounding::HalfAway, "half-away"),
    (Rounding::HalfEven, "half-even"),
    (Rounding::Down, "down"),
    (Rounding::Up, "up"),
    (Rounding::Floor, "floor"),
    (Rounding::Ceil, "ceil"),
];

/// The error of `parse` for a [`Rounding`]: the text is not the name of a rule.
///
/// ```
/// use num_rational::{ParseRoundingError, Rounding};
///
/// let refusal: ParseRoundingError = "HalfEven".parse::<Rounding>().unwrap_err();
/// assert_eq!(refusal.to_string(), "the text is not half-away, half-even, down, up, floor or ceil");
/// ```
#[derive(Clone, Copy, Debug, PartialEq, Eq, Hash)]
pub struct ParseRoundingError(());

impl fmt::Display for ParseRoundingError {
    fn fmt(&self, f: &mut fmt::Formatter<'_>) -> fmt::Result {
        f.pad("the text is not half-away, half-even, down, up, floor or ceil")
    }
}

#[cfg(feature = "std")]
impl std::error::Error for ParseRoundingError {}

fn name(rule: Rounding) -> &'static str {
    NAMES[rule as usize].1
}

/// The name of the rule: `half-away`, `half-even`, `down`, `up`, `floor` or `ceil`.
///
/// ```
/// use num_rational::Rounding;
///
/// assert_eq!(format!("{}, {:>6}", Rounding::HalfEven, Rounding::Up), "half-even,     up");
/// ```
impl fmt::Display for Rounding {
    fn fmt(&self, f: &mut fmt::Formatter<'_>) -> fmt::Result {
        f.pad(name(*self))
    }
}

impl FromStr for Rounding {
    type Err = ParseRoundingError;

    /// The rule of this name, as `{}` writes it.
    ///
    /// ```
    /// use num_rational::Rounding;
    ///
    /// assert_eq!("half-even".parse(), Ok(Rounding::HalfEven));
    /// assert!("Half-Even".parse::<Rounding>().is_err());
    /// ```
    fn from_str(text: &str) -> Result<Rounding, ParseRoundingError> {
        let of_this_name = NAMES.iter().find(|(_, name)| *name == text);
        of_this_name.map(|(rule, _)| *rule).ok_or(ParseRoundingError(()))
    }
}

/// `HalfAway`, since num-rational's `round` and that of std's floats round so.
///
/// ```
/// use num_rational::{Ratio, Rounding};
///
/// let half = Ratio::new(5, 2);
/// assert_eq!(half.round_to(1, Rounding::default()), Some(half.round()));
/// ```
impl Default for Rounding {
    fn default() -> Rounding {
        Rounding::HalfAway
    }
}

impl Eq for Rounding {}

impl Hash for Rounding {
    fn hash<H: Hasher>(&self, state: &mut H) {
        (*self as u8).hash(state);
    }
}

impl PartialOrd for Rounding {
    fn partial_cmp(&self, other: &Rounding) -> Option<Ordering> {
        Some(self.cmp(other))
    }
}

/// The order of the list above, for maps whose keys are in order.
impl Ord for Rounding {
    fn cmp(&self, other: &Rounding) -> Ordering {
        (*self as u8).cmp(&(*other as u8))
    }
}

/// The name, as a text.
#[cfg(feature = "serde")]
impl serde::Serialize for Rounding {
    fn serialize<S: serde::Serializer>(&self, format: S) -> Result<S::Ok, S::Error> {
        format.serialize_str(name(*self))
    }
}

#[cfg(feature = "serde")]
impl<'de> serde::Deserialize<'de> for Rounding {
    fn deserialize<D: serde::Deserializer<'de>>(format: D) -> Result<Rounding, D::Error> {
        super::serde_forms::read_text(format, "the name of a rule of rounding", str::parse)
    }
}
