// Erased from crates/ratio_big/src/lib.rt by rust/erase: not to be edited.
//! `BigFraction`: fractions of any size, always in lowest terms, so that no sum, difference, product or quotient is out of range.
//!
//! A `BigFraction` takes no memory while its two numbers fit an `i64`. Beyond that its numbers are as long as they have to be, and a call
//! can fail only for want of memory.
//! So 2^63 takes some, and 2^63 - 1 takes none:
//!
//! ```rattle
//! let one = BigFraction::one();
//! let most = BigFraction::from_integer(9223372036854775807);
//! let more = most.add(alloc, &one)?;
//! assert!(rt; more != most);
//! assert!(rt; most != more);
//! let back = more.subtract(alloc, &one)?;
//! assert!(rt; back == most);
//! ```
mod arithmetic;
mod bit_bounds;
mod cancelling;
mod comparing;
mod continued;
mod cuts;
mod decimals;
mod digits;
mod divisors;
mod equality;
mod exchange;
mod few_digits;
mod floats;
mod fraction;
mod lengths;
mod lowest_sums;
mod making;
mod multiples;
mod nearest;
mod neighbours;
mod parts;
mod powers;
mod products;
mod reading;
mod remainders;
mod rounding;
mod signs;
mod simplest;
mod sums;
mod texts;
mod totals;
mod wholes;

pub use bit_bounds::WithinRefusal;
pub use fraction::BigFraction;
