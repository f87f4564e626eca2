// Erased from crates/ratio_slots/src/lib.rt by rust/erase: not to be edited.
//! Slots, one for each denominator, with the sum of the numerators over it: what totals are made of, so that they lose nothing. The
//! caller gives the room. Fractions and whole tables go in and out again; a refusal changes nothing.
//!
//! 1/36 - 1/28 takes two slots, one for the denominator 36 and one for 28. Adding 5/36 changes one number: the first slot
//! then says 6/36. No gcd is computed, and no addition overflows.
//!
//! ```rattle
//! let mut slots = [Slot::EMPTY; 2];
//! assert!(rt; put_loose(&mut slots, 1, 36) == Ok(()));
//! assert!(rt; put_loose(&mut slots, -1, 28) == Ok(()));
//! assert!(rt; put_loose(&mut slots, 5, 36) == Ok(()));
//! assert!(rt; put_loose(&mut slots, 1, 12) == Err(LooseRefusal::MoreRoom));
//! // 6/36 - 1/28
//! assert!(rt; sum_of(&slots, &mut [7; 14]) == Ok(Some((11, 84))));
//! ```
//!
//! A read puts the sum over its common denominator: `read_slots`. `sum_of` returns it in lowest terms where these fit 64 bits, and
//! `mean_of` returns the mean. `compare_tables` and `sign_of` are exact where these do not fit.
mod bounds;
mod changes;
mod common;
mod comparing;
mod decimal;
mod growth;
mod joined;

mod lowest;
mod orders;
mod reading;
mod rooms;
mod rounding;
mod short_sums;
mod slots;
mod sums;
mod tally;

mod wide_reads;

pub use changes::{LooseRefusal, merge_slots, move_slots, put, put_loose};
pub use comparing::{CompareRefusal, compare_tables};
pub use decimal::{decimal_bytes_of, decimal_digits_of, put_bounded_of, put_decimal_of};
pub use growth::{leave_zeros, next_length};
pub use joined::{JoinRefusal, Joined, NoSum};
pub use lowest::{mean_of, sum_of};
pub use orders::{OrderRefusal, digits_of_order, order_of, sign_of};
pub use reading::{MOST_DIGITS, OverCommon, ReadRefusal, digits_of_read, read_slots};
pub use rooms::AddRefusal;
pub use rounding::{digits_of_multiple, float_of, integer_of, multiple_of};
pub use short_sums::{add_short, short_pair};
pub use slots::{Slot, clear, count_free, find, numerator_in};
pub use tally::{MOST_WEIGHT, Refusal, Tally};
pub use wide_reads::WideFraction;
