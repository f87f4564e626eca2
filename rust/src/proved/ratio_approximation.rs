// Erased from crates/ratio_approximation/src/lib.rt by rust/erase: not to be edited.
//! Fractions near others, given by numerator and denominator: the nearest one with a bounded denominator, the simplest one between two
//! others, and the one with a given continued fraction.
//!
//! Calls with the type, the operands and what they return, as the tests write them:
//!
//! ```text
//! nearest::nearest i64 3141592653/1000000000 10 = 22/7
//! nearest::nearest i64 3141592653/1000000000 100 = 311/99
//! nearest::nearest i64 3141592653/1000000000 1000 = 355/113
//! simplest::simplest_between i8 1/3 1/2 = 2/5
//! ```
pub mod from_quotients;
pub mod nearest;
pub mod simplest;
