// Erased from crates/ratio_c/src/compare.rt by rust/erase: not to be edited.
//! The order of a pair, and whether it is equal, each as a number.

use crate::proved::ratio_c::code::{ANSWERED, ZERO_DENOMINATOR};
use crate::proved::ratio_c::crossing::TwoFractions;
use crate::proved::ratio_c::each::Call;
use bakhsney::proved::ratio_core::{Steps, cross_order};
use bakhsney::proved::ratio_integer::Integer;
use core::cmp::Ordering;

/// An order: -1, 0 or 1. If there is none, the code says why, and `order` is 0.
#[repr(C)]
pub struct Order {
    pub code: u32,
    pub order: i32,
}

/// The order of the first fraction and the second one.
#[derive(Clone, Copy)]
pub struct Comparison;

impl<P: TwoFractions> Call<P, Order> for Comparison {
    #[inline(always)]
    fn answer(&self, pair: &P) -> Order {
        match order_of(pair) {
            Some(order) => Order {
                code: ANSWERED,
                order: number_of(order),
            },
            None => Order {
                code: ZERO_DENOMINATOR,
                order: 0,
            },
        }
    }
}

/// The order of the two fractions of a pair, or `None` if a denominator is 0.
#[inline(always)]
fn order_of<P: TwoFractions>(pair: &P) -> Option<Ordering> {
    let (n, d) = pair.left();
    let (m, e) = pair.right();
    if d.is_zero() || e.is_zero() {
        return None;
    }
    Some(cross_order(n, d, m, e, &mut Steps::new()))
}

/// An order as a number: -1, 0 or 1.
#[inline(always)]
pub fn number_of(order: Ordering) -> i32 {
    match order {
        Ordering::Less => -1,
        Ordering::Equal => 0,
        Ordering::Greater => 1,
    }
}

/// Whether something holds: 1 if it does, and 0 if it does not. If that is not known, the code says why, and `holds` is 0.
#[repr(C)]
pub struct Truth {
    pub code: u32,
    pub holds: u32,
}

/// Whether the two fractions have the same value.
#[derive(Clone, Copy)]
pub struct Equality;

impl<P: TwoFractions> Call<P, Truth> for Equality {
    #[inline(always)]
    fn answer(&self, pair: &P) -> Truth {
        match order_of(pair) {
            Some(order) => Truth {
                code: ANSWERED,
                holds: truth_of(order.is_eq()),
            },
            None => Truth {
                code: ZERO_DENOMINATOR,
                holds: 0,
            },
        }
    }
}

/// A test as a number: 1 for true, and 0 for false.
#[inline(always)]
fn truth_of(test: bool) -> u32 {
    if test { 1 } else { 0 }
}
