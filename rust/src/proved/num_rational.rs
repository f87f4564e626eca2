// Erased from crates/num_rational/src/lib.rt by rust/erase: not to be edited.
//! Exact fractions of machine integers. `Ratio<T>` is a fraction whose denominator is not 0, and `Reduced<T>` one that is always in lowest
//! terms. Most calls hand the two numbers on to a function in a crate below: `Ratio::floor` calls `floor` of `ratio_core`.
//!
//! A `Reduced64` is a `Reduced<i64>`. Of 1/3 and 1/2 this returns 5/12:
//!
//! ```rattle
//! /// The mean of two amounts, or `None` exactly where their sum or its half does not fit in 64 bits.
//! pub fn mean(left: &Reduced64, right: &Reduced64) -> Option<Reduced64>
//!     ensures { ChecksMean (lowest_numbers left.now) (lowest_numbers right.now) result }
//! {
//!     left.checked_add(right)?.checked_div(2)
//! }
//! ```
mod continued;

mod many_products;
mod operand;
mod ops;
mod printing;
mod ratio;
mod reduced;
mod splitting;

pub use continued::{Convergents, Quotients};

pub use operand::{Operand, ReducedOperand};
pub use ratio::{Constants, Ratio, Rational, Rational32, Rational64};
pub use crate::proved::ratio_core::{
    BaseTenText, CodeList, DecimalText, Exponent, Form, ParseRatioError, RatioErrorKind, RatioText,
    Steps, Taken,
};
pub use crate::proved::ratio_decimal::rounding_rule::Rounding;
pub use crate::proved::ratio_decimal::{DecimalRefusal, TextRefusal};
pub use reduced::{Reduced, Reduced32, Reduced64};
pub use splitting::{Share, SplitRefusal, WeightRefusal, split, split_by_weights, split_shares};
