// Erased from crates/ratio_totals/src/lib.rt by rust/erase: not to be edited.
//! `Total` and `WideTotal`, which add up many fractions `Reduced` and lose nothing, and exact sums of lists, in room that the caller gives.
//!
//! A `Total<T>` takes fractions `Reduced<T>` over a type of at most 64 bits, and no step of it can fail to fit.
//! `Total::sum` returns a `Reduced<T>` where the sum fits, however large the totals on the way were: over `i8`,
//! 127/1 + 1/127 - 1/127 is 127/1.
//!
//! The same holds of a list, where `of` makes fractions over `i8`:
//!
//! ```rattle
//! let most = of(&rt, 127i8, 1);
//! let tiny = of(&rt, 1i8, 127);
//! let less = of(&rt, -1i8, 127);
//! assert_eq!(rt;
//!     checked_sum(rt.alloc(), &[most, tiny, less]),
//!     Ok(Some(most))
//! );
//! assert_eq!(rt; checked_sum(rt.alloc(), &[most, tiny]), Ok(None));
//! ```
//!
//! A `WideTotal<T>` takes fractions over any primitive type, also `i128` and `u128`. It is one sum over the common denominator, which has
//! as many digits as the caller gives.

mod numbers;
mod short;
mod splitting;

mod wide_changes;
mod wide_reads;
mod wide_total;

pub use crate::proved::ratio_slots::{CompareRefusal, Joined, MOST_DIGITS, ReadRefusal, Refusal, Slot};
pub use short::Short;
pub use splitting::{RoomSplitRefusal, split_in};

pub use wide_changes::{WideProductRefusal, WideRefusal, wide_total_of};
pub use wide_total::{ShortRoom, WideTotal};
