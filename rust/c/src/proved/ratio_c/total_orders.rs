// Erased from crates/ratio_c/src/total_orders.rt by rust/erase: not to be edited.
//! The calls for C that compare two totals, and the room that this needs.

use crate::proved::ratio_c::code::{ANSWERED, MORE_ROOM, NOT_HELD, TOO_LONG};
use crate::proved::ratio_c::compare::{Order, number_of};
use crate::proved::ratio_c::each::{BAD_LENGTH, DONE};
use bakhsney::proved::ratio_slots::{OrderRefusal, Slot, digits_of_order, order_of};

/// The code of a comparison that was refused.
#[inline]
fn code_of(why: OrderRefusal) -> u32 {
    match why {
        OrderRefusal::MoreSlots => MORE_ROOM,
        OrderRefusal::TooGreat => NOT_HELD,
        OrderRefusal::MoreRoom => MORE_ROOM,
        OrderRefusal::TooLong => TOO_LONG,
    }
}

/// The order of the sums of both.
#[inline]
fn order_answer(left: &[Slot], right: &[Slot], slots: &mut [Slot], room: &mut [u64]) -> Order {
    match order_of(left, right, slots, room) {
        Ok(order) => Order {
            code: ANSWERED,
            order: number_of(order),
        },
        Err(why) => Order {
            code: code_of(why),
            order: 0,
        },
    }
}

/// How many digits of room the order of two totals needs.
#[no_mangle]
pub unsafe extern "C" fn ratio_total_compare_digits_i64(left: *const Slot, left_len: usize, right: *const Slot, right_len: usize) -> u64 {
    // SAFETY: the header says what the caller owes for each pointer and its length.
    let left = crate::items(left, left_len);
    let right = crate::items(right, right_len);
    digits_of_order(left, right) as u64
}

/// The order of the sum of the first slots and that of the second ones. The slots are for their difference.
#[no_mangle]
pub unsafe extern "C" fn ratio_total_compare_i64(left: *const Slot, left_len: usize, right: *const Slot, right_len: usize, slots: *mut Slot, slots_len: usize, room: *mut u64, room_len: usize, answers: *mut Order, answers_len: usize) -> u32 {
    // SAFETY: the header says what the caller owes for each pointer and its length.
    let left = crate::items(left, left_len);
    let right = crate::items(right, right_len);
    let slots = crate::items_mut(slots, slots_len);
    let room = crate::items_mut(room, room_len);
    let answers = crate::items_mut(answers, answers_len);
    if answers.len() != 1 {
        return BAD_LENGTH;
    }
    answers[0] = order_answer(left, right, slots, room);
    DONE
}
