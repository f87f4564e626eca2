// Erased from crates/ratio_core/src/lib.rt by rust/erase: not to be edited.
//! What is computed on fractions, given by numerator and denominator: order, hash, lowest terms, sums, products, remainders, powers,
//! rounding to whole numbers, signs, and texts in every base.
pub mod checked_new;
pub mod counted;
pub mod divisors;
mod exponent;
mod hash;
mod magnitudes;
pub mod order;
mod parse_error;
pub mod pow;
pub mod products;
pub mod remainder;
pub mod rounding;
pub mod sign;
mod steps;
pub mod sums;
pub mod text;

pub use counted::Counted;
pub use exponent::Exponent;
pub use hash::{CodeList, Taken, hash_counted};
pub use order::{cmp_counted, compare, cross_order};
pub use parse_error::{ParseRatioError, RatioErrorKind};
pub use steps::{Side, Steps};
pub use text::{BaseTenText, DecimalText, Form, RatioText};
