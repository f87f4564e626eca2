// Erased from crates/ratio_c/src/total_changes.rt by rust/erase: not to be edited.
//! The calls for C that change a total: fractions go in or out, and so do the slots of another total; and for one that grows, the length of
//! its next table, and the slots that move there.

use crate::proved::ratio_c::numbers64::Fraction64;
use crate::proved::ratio_c::totals::{Total64, Way, gather, pour};
use bakhsney::proved::ratio_slots::{Slot, leave_zeros, next_length};

/// The fractions go into the total.
#[no_mangle]
pub unsafe extern "C" fn ratio_total_add_i64(asked: *const Fraction64, asked_len: usize, total: *mut Total64, total_len: usize, slots: *mut Slot, slots_len: usize) -> u32 {
    // SAFETY: the header says what the caller owes for each pointer and its length.
    let asked = crate::items(asked, asked_len);
    let total = crate::items_mut(total, total_len);
    let slots = crate::items_mut(slots, slots_len);
    gather(Way::In, asked, total, slots)
}

/// The fractions go out of the total.
#[no_mangle]
pub unsafe extern "C" fn ratio_total_subtract_i64(asked: *const Fraction64, asked_len: usize, total: *mut Total64, total_len: usize, slots: *mut Slot, slots_len: usize) -> u32 {
    // SAFETY: the header says what the caller owes for each pointer and its length.
    let asked = crate::items(asked, asked_len);
    let total = crate::items_mut(total, total_len);
    let slots = crate::items_mut(slots, slots_len);
    gather(Way::Out, asked, total, slots)
}

/// The slots and the count of another total go into the total.
#[no_mangle]
pub unsafe extern "C" fn ratio_total_merge_i64(asked: *const Slot, asked_len: usize, count: i64, total: *mut Total64, total_len: usize, slots: *mut Slot, slots_len: usize) -> u32 {
    // SAFETY: the header says what the caller owes for each pointer and its length.
    let asked = crate::items(asked, asked_len);
    let total = crate::items_mut(total, total_len);
    let slots = crate::items_mut(slots, slots_len);
    pour(Way::In, asked, count, total, slots)
}

/// The slots and the count of another total go out of the total. A slot with the numerator -2^127 cannot go out, unless it is empty.
#[no_mangle]
pub unsafe extern "C" fn ratio_total_unmerge_i64(asked: *const Slot, asked_len: usize, count: i64, total: *mut Total64, total_len: usize, slots: *mut Slot, slots_len: usize) -> u32 {
    // SAFETY: the header says what the caller owes for each pointer and its length.
    let asked = crate::items(asked, asked_len);
    let total = crate::items_mut(total, total_len);
    let slots = crate::items_mut(slots, slots_len);
    pour(Way::Out, asked, count, total, slots)
}

/// How many slots the next table of a total has; 0 where it would have more than `most`.
#[no_mangle]
pub unsafe extern "C" fn ratio_total_next_length_i64(taken: u64, more: u64, chance: u64, most: u64) -> u64 {
    // SAFETY: the header says what the caller owes for each pointer and its length.

    match next_length(taken, more, chance, most) {
        Some(length) => length,
        None => 0,
    }
}

/// Leaves out the fractions that are 0, moves the others to the front, and returns how many these are.
#[no_mangle]
pub unsafe extern "C" fn ratio_total_leave_zeros_i64(slots: *mut Slot, slots_len: usize) -> u64 {
    // SAFETY: the header says what the caller owes for each pointer and its length.
    let slots = crate::items_mut(slots, slots_len);
    leave_zeros(slots) as u64
}
