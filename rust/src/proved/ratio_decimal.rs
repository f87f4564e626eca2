// Erased from crates/ratio_decimal/src/lib.rt by rust/erase: not to be edited.
//! Fractions as decimals such as `12.375` and as floats: printed, read, also from what a person types, and rounded by six rules, the
//! numbers short or of any length.
//!
//! Calls with the type, the operands and what they return, as the tests write them:
//!
//! ```text
//! ratio_decimal::round_to i64 2/3 100 HalfEven = 67/100
//! ratio_decimal::decimal i64 -2/4 1 HalfEven = "-0.5"
//! ratio_decimal::from_decimal i64 "-1.5" = -3/2
//! ratio_decimal::from_text i64 "-1 1/2" = -3/2
//! ```
pub mod cuts;
mod exact;
pub mod float;

mod long;
pub mod naturals;
mod places;
mod product;
mod reading;
pub mod rounding_rule;
mod typed;

pub use exact::exact_decimal;
pub use long::write_places;
pub use places::decimal;
pub use product::{rounded_quotient, rounded_quotient_to};
pub use reading::{DecimalRefusal, from_decimal};
pub use rounding_rule::{round_to, rounded_product, rounded_product_to};
pub use typed::{TextRefusal, from_text};
