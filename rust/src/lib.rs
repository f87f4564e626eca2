//! Exact fractions, with the names and traits of the crate num-rational.
//!
//! For the twelve machine types, from `i8` to `u128`, `isize` and `usize`, the code that computes was proved: a call never wraps and never
//! returns a wrong number. For every other integer type, such as `BigInt` or a program's own, it is tested and not proved. `BigFraction` has
//! numbers of any size, and its code was proved, too.
//!
//! ```
//! use num_rational::Ratio;
//!
//! let shares = [Ratio::new(1, 2), Ratio::new(1, 3), Ratio::new(1, 6)];
//! assert_eq!(shares.iter().sum::<Ratio<i64>>(), Ratio::from_integer(1));
//! assert_eq!("6/8".parse::<Ratio<i64>>().unwrap().to_string(), "3/4");
//! assert!(Ratio::new(i64::MAX - 1, i64::MAX) < Ratio::from_integer(1));
//! ```
//!
//! # Which type
//!
//! | Type | For what | Where a result does not fit |
//! |---|---|---|
//! | [`Reduced<T>`](Reduced) | fractions of machine integers, always in lowest terms: take this one, unless the next row applies | a checked call returns `None`, an operator panics |
//! | [`Ratio<T>`](Ratio) | programs written for num-rational, fractions that keep their fields, and other integer types | the same; some steps must fit, too |
//! | [`Total<T>`][`Total`] | the exact sum of up to 2^63-1 `Reduced` | only the sum that is read must fit; a decimal of it always does |
//! | [`BigFraction`] | fractions of any size | never, but for want of memory |
//!
//! ```
//! use num_rational::{Ratio, Reduced64, Rounding};
//!
//! let third = Reduced64::checked_new(2, 6).unwrap();
//! assert_eq!(third.checked_add(1).unwrap().to_string(), "4/3");
//! assert_eq!(third.decimal(2, Rounding::HalfEven).as_str(), "0.33");
//!
//! assert_eq!(Ratio::new_raw(2, 6).into_raw(), (2, 6)); // not in lowest terms
//!
//! # #[cfg(feature = "alloc")]
//! # {
//! use num_rational::{BigFraction, Total};
//!
//! let total: Total<i64> = [third; 3].iter().sum();
//! assert_eq!(total.sum().unwrap(), Some(Reduced64::ONE));
//!
//! let power = BigFraction::new(2, 3).pow(100);
//! assert_eq!(power * BigFraction::new(3, 2).pow(100), BigFraction::from(1));
//! # }
//! ```
//!
//! [`split`] and [`split_by_weights`] divide an amount by shares, and lose nothing. Code that is generic over the machine types requires
//! [`integer::Integer`].
//!
//! # Features
//!
//! | Feature | What it brings |
//! |---|---|
//! | `std`, the default | `alloc`, and std's trait `Error` for the errors |
//! | `alloc`, part of `std` and of `num-bigint` | [`BigFraction`], [`Total`], and sums and products of lists whose steps need not fit |
//! | `serde` | reads and writes pairs, as num-rational does, and refuses a `Reduced` that is not in lowest terms. On a field, `#[serde(with = "num_rational::text")]` writes `"1/3"`, `decimal` `"0.25"`, `two_numbers` `[1,3]` |
//! | `num-bigint`, `num-bigint-std` | `BigRational` and its conversions |
//! | `num-rational` | conversions to and from num-rational's own `Ratio` |
//! | `arbitrary`, `proptest`, `quickcheck` | their traits, for drawn fractions |
//! | `rand` | `FractionsBetween`, which draws each fraction between two others with the same chance |
//! | `postgres-types` | `ToSql` and `FromSql` for the type `ratio` of our extension |
//!
//! # In the place of num-rational
//!
//! The examples name the crate `num_rational`, as a program does that has this line in its `Cargo.toml`:
//!
//! ```toml
//! num-rational = { package = "bakhsney", path = "../bakhsney/rust" }
//! ```
//!
//! The crate's `README.md` says what differs from num-rational, and what is proved. `CHANGELOG.md` says what a version promises.
//!
//! # What is not proved
//!
//! The proofs are in Rattle. `src/proved/` holds the proved code without its contracts. A layer written by hand,
//! in `src/layer/`, tests what the proved calls require.
//!
//! `from_f64`, `from_f32`, `approximate_float`, `approximate_float_unsigned`, `const_new`, the forms `{:e}` and `{:E}`, and `from_str_radix` and the
//! bounds in bits of a `BigFraction` are not proved. The layer computes them, and tests compare them with num-rational.
#![cfg_attr(not(feature = "std"), no_std)]
// Without memory, the page names types that are not there.
#![cfg_attr(not(feature = "alloc"), allow(rustdoc::broken_intra_doc_links))]
// The documentation says of each item which feature it needs.
#![cfg_attr(docsrs, feature(doc_cfg))]
#![warn(missing_docs)]

#[cfg(not(any(target_pointer_width = "64", target_pointer_width = "32")))]
compile_error!("isize and usize have proofs of 64 and of 32 bits, and this target has another width");

#[cfg(feature = "alloc")]
extern crate alloc;
#[cfg(all(test, not(feature = "std")))]
extern crate std;

mod layer;
#[cfg(all(feature = "alloc", not(feature = "proved-calls")))]
mod memory;
#[cfg(all(feature = "alloc", feature = "proved-calls"))]
#[doc(hidden)]
pub mod memory;
mod newer;
#[cfg(not(feature = "proved-calls"))]
mod proved;
#[cfg(feature = "proved-calls")]
#[doc(hidden)]
pub mod proved;

/// The trait of the twelve machine types, for generic code. `Reduced` and `Total` require it. `Ratio` takes each type of num-integer's
/// `Integer`.
///
/// It is a module of its own. So `use num_rational::*` beside `use num_integer::*` brings one `Integer`, that of num-integer.
pub mod integer {
    pub use crate::layer::Integer;
}

pub use layer::{CastError, Convergents, FloatError, ParseRoundingError, Quotients, Ratio, Rational, Rational32, Rational64, Reduced, Reduced32, Reduced64, ReducedError};
#[cfg(feature = "num-bigint")]
pub use layer::BigRational;
#[cfg(feature = "rand")]
pub use layer::FractionsBetween;
pub use layer::{split, split_by_weights};
#[cfg(feature = "alloc")]
pub use layer::{TooLong, Total};
#[cfg(feature = "alloc")]
pub use layer::{BigFraction, BigOperand, BigTextRefusal};
#[cfg(feature = "serde")]
pub use layer::{serde_decimal as decimal, serde_text as text, serde_two_numbers as two_numbers};
#[cfg(feature = "alloc")]
pub use memory::AllocError;
/// The error of `parse`: the text is not a fraction, or a number in it or in its lowest terms does not fit the type. Over `u8`, `256/2` is one.
///
/// ```
/// use num_rational::Ratio;
///
/// let refusal = "1/x".parse::<Ratio<i32>>().unwrap_err();
/// assert_eq!(refusal.to_string(), "failed to parse integer");
/// ```
#[doc(inline)]
pub use proved::num_rational::ParseRatioError;
/// The two kinds of this error, which `kind` returns.
///
/// ```
/// use num_rational::{Ratio, RatioErrorKind};
///
/// let refusal = "1/0".parse::<Ratio<i32>>().unwrap_err();
/// assert_eq!(refusal.kind(), RatioErrorKind::ZeroDenominator);
/// ```
#[doc(inline)]
pub use proved::num_rational::RatioErrorKind;
/// Why [`split`] does not split an amount by shares: the first of these that applies. It is hardly ever `NotHeld` with the feature
/// `alloc`: [`split`] says when.
///
/// With the feature `alloc`, `NotHeld` only says that the common denominator of the shares is 2^(2^20) or more: sums that do not fit take memory.
///
/// ```
/// use num_rational::{split, Reduced, SplitRefusal};
///
/// let [third, owed] = [(1i8, 3), (-1, 3)].map(|(numer, denom)| Reduced::checked_new(numer, denom).unwrap());
/// let refusal = |shares: &[_]| split(100, shares, &mut [0; 2]).unwrap_err();
/// assert_eq!(refusal(&[third; 3]), SplitRefusal::Length);
/// assert_eq!(refusal(&[third, owed]), SplitRefusal::BelowZero);
/// assert_eq!(refusal(&[third; 2]), SplitRefusal::NotOne);
/// ```
#[doc(inline)]
pub use proved::num_rational::SplitRefusal;
/// Why [`split_by_weights`] does not split an amount: the first of these that applies.
///
/// ```
/// use num_rational::{split_by_weights, WeightRefusal};
///
/// let refusal = |weights: &[i8]| split_by_weights(100, weights, &mut [0; 2]).unwrap_err();
/// assert_eq!(refusal(&[1, 1, 1]), WeightRefusal::Length);
/// assert_eq!(refusal(&[2, -1]), WeightRefusal::BelowZero);
/// assert_eq!(refusal(&[127, 1]), WeightRefusal::NotHeld);
/// assert_eq!(refusal(&[0, 0]), WeightRefusal::AllZero);
/// ```
#[doc(inline)]
pub use proved::num_rational::WeightRefusal;
/// The text that `base_ten_text` of a fraction returns, and that `put_base_ten_text` writes.
///
/// ```
/// use num_rational::{BaseTenText, Ratio};
///
/// let text: BaseTenText = Ratio::new(1, 2).base_ten_text();
/// assert_eq!(text.as_str(), "1/2");
/// ```
#[doc(inline)]
pub use proved::ratio_core::BaseTenText;
/// Why `from_decimal` of a `Reduced` takes no fraction from a text.
///
/// ```
/// use num_rational::{DecimalRefusal, Reduced};
///
/// assert_eq!(Reduced::<i8>::from_decimal("12,5"), Err(DecimalRefusal::NotDecimal));
/// assert_eq!(Reduced::<i8>::from_decimal("128"), Err(DecimalRefusal::NotHeld));
/// ```
#[doc(inline)]
pub use proved::ratio_decimal::DecimalRefusal;
/// The text that `decimal` and `exact_decimal` of a `Reduced` return.
///
/// ```
/// use num_rational::{DecimalText, Reduced64, Rounding};
///
/// let text: DecimalText = Reduced64::checked_new(1, 3).unwrap().decimal(2, Rounding::HalfEven);
/// assert_eq!(text.as_str(), "0.33");
/// ```
#[doc(inline)]
pub use proved::ratio_core::DecimalText;
/// Why `from_text` of a `Reduced` takes no fraction from a text.
///
/// ```
/// use num_rational::{Reduced, TextRefusal};
///
/// assert_eq!(Reduced::<i8>::from_text("1.5/2"), Err(TextRefusal::NotNumber));
/// assert_eq!(Reduced::<i8>::from_text("1/0"), Err(TextRefusal::ZeroDenominator));
/// assert_eq!(Reduced::<i8>::from_text("200/3"), Err(TextRefusal::NotHeld));
/// ```
#[doc(inline)]
pub use proved::ratio_decimal::TextRefusal;
/// How a fraction is rounded to a multiple, such as cents.
///
/// ```
/// use num_rational::{Reduced64, Rounding};
///
/// let by = |rule| Reduced64::checked_new(-5, 2).unwrap().decimal(0, rule).as_str().to_owned();
/// assert_eq!([by(Rounding::HalfAway), by(Rounding::HalfEven), by(Rounding::Down)], ["-3", "-2", "-2"]);
/// assert_eq!([by(Rounding::Up), by(Rounding::Floor), by(Rounding::Ceil)], ["-3", "-3", "-2"]);
/// ```
#[doc(inline)]
pub use proved::ratio_decimal::rounding_rule::Rounding;
