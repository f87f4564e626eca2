// Erased from crates/ratio_natural/src/lib.rt by rust/erase: not to be edited.
//! Natural numbers of any length, over slices of digits of 64 bits, the lowest digit first. The caller gives the room, so no call takes
//! memory. Each result is exact: order, sums, products, quotients, greatest common divisors, lowest terms that fit 64 bits, shifts, and
//! decimal texts.
//!
//! Leading zeros are allowed everywhere: they are the last digits of a slice.
//! So 7 has three digits here, and then 7 * 10^19:
//!
//! ```rattle
//! let mut a = [7, 0, 0];
//! times_power_of_ten(&mut a, 0);
//! assert!(rt; a == [7, 0, 0]);
//! times_power_of_ten(&mut a, 19);
//! assert!(rt; a == [14_659_767_778_871_345_152, 3, 0]);
//! ```
mod adding;
mod common_divisor;
mod comparing;
mod decimal;
mod dividing;
mod exact_division;
mod joining;

mod lehmer_steps;
mod long_division;
mod multiplying;
mod two_digits;

pub use adding::{add, add_digit, subtract, subtract_digit, subtract_times};
pub use common_divisor::gcd;
pub use comparing::{bits, compare, is_zero, used};
pub use decimal::{put_decimal, put_last_digits, read_decimal};
pub use dividing::{divide, remainder};
pub use exact_division::exact_quotient;
pub use joining::join_share;
pub use long_division::{divide_long, lowest_terms, quotient_digit};
pub use multiplying::{
    add_times, multiply, shift_left, shift_right, times_plus, times_power_of_ten,
};
pub use two_digits::{gcd_wide, gcd_with_odd};
