//! The names and traits of num-rational over the proved calls.
//!
//! Each call of the layer passes its fields to a proved call, and returns its result. If the proved call requires something of its
//! caller, the layer tests that first, in each build. If the test fails, a call that returns an `Option` returns `None`, and the
//! others panic.
//!
//! A `Ratio` takes each integer type of num-rational. If it is a machine type, a call is the proved one: `same` says which type it is. If not,
//! a call is one of `schoolbook`, which is not proved.
//!
//! No proved call is behind fractions near a float and the forms with an exponent. Tests compare these with num-rational.
//!
//! The calls of `BigFraction` take memory. If there is none, one of them with `try_` returns an error.
mod approximations;
mod arithmetic;
mod as_reduced;
#[cfg(feature = "num-bigint")]
mod big;
#[cfg(feature = "alloc")]
mod big_fraction;
#[cfg(feature = "alloc")]
mod big_fraction_conversions;
#[cfg(feature = "alloc")]
mod big_fraction_divisors;
#[cfg(feature = "alloc")]
mod big_fraction_euclid;
#[cfg(feature = "alloc")]
mod big_fraction_near;
#[cfg(feature = "alloc")]
mod big_fraction_operand;
#[cfg(feature = "alloc")]
mod big_fraction_operators;
#[cfg(feature = "alloc")]
mod big_fraction_order;
#[cfg(feature = "alloc")]
mod big_fraction_rounding;
#[cfg(feature = "alloc")]
mod big_fraction_texts;
#[cfg(feature = "alloc")]
mod big_fraction_traits;
#[cfg(all(feature = "alloc", feature = "serde"))]
mod big_fraction_two_numbers;
#[cfg(feature = "alloc")]
mod big_fraction_within;
#[cfg(all(test, feature = "alloc"))]
mod borders;
mod bounds;
mod casts;
mod constants;
mod continued;
mod conversions;
mod errors;
mod floats;
mod friends;
mod integer;
mod list_sums;
mod many_products;
mod numbers;
mod order;
mod powers;
mod ratio;
mod reduced;
mod reduced_operators;
mod reduced_traits;
#[cfg(feature = "alloc")]
mod room_sum;
mod rounding;
mod rounding_text;
mod same;
mod schoolbook;
#[cfg(feature = "serde")]
pub mod serde_decimal;
#[cfg(feature = "serde")]
mod serde_forms;
#[cfg(feature = "serde")]
pub mod serde_text;
#[cfg(all(feature = "alloc", feature = "serde"))]
mod serde_total;
#[cfg(feature = "serde")]
pub mod serde_two_numbers;
#[cfg(feature = "serde")]
mod serialized;
mod sign;
mod simplest;
mod splits;
mod text;
mod to_numbers;
#[cfg(feature = "alloc")]
mod total;
#[cfg(feature = "alloc")]
mod total_equality;
#[cfg(feature = "alloc")]
mod total_values;

#[cfg(feature = "num-bigint")]
pub use big::BigRational;
#[cfg(feature = "alloc")]
pub use big_fraction::BigFraction;
#[cfg(feature = "alloc")]
pub use big_fraction_operand::BigOperand;
#[cfg(feature = "alloc")]
pub use big_fraction_texts::BigTextRefusal;
pub use casts::CastError;
pub use continued::{Convergents, Quotients};
pub use floats::FloatError;
#[cfg(feature = "rand")]
pub use friends::FractionsBetween;
pub use integer::Integer;
pub use ratio::{Ratio, Rational, Rational32, Rational64};
pub use reduced::{Reduced, Reduced32, Reduced64};
pub use reduced_traits::ReducedError;
pub use rounding_text::ParseRoundingError;
pub use splits::{split, split_by_weights};
#[cfg(feature = "alloc")]
pub use total::{TooLong, Total};
