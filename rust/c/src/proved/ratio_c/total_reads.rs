// Erased from crates/ratio_c/src/total_reads.rt by rust/erase: not to be edited.
//! The calls for C that read a total, and the room that these need: its empty slots, its sum, its mean, its sign, its decimal, and the
//! multiple of `1/parts` near it.

use crate::proved::ratio_c::code::{ANSWERED, BAD_OPTION, DIVISION_BY_ZERO, MORE_ROOM, TOO_LONG};
use crate::proved::ratio_c::compare::{Order, number_of};
use crate::proved::ratio_c::crossing::{checked, refused};
use crate::proved::ratio_c::each::{BAD_LENGTH, DONE};
use crate::proved::ratio_c::numbers64::Answer64;
use crate::proved::ratio_c::one_fraction::cast;
use crate::proved::ratio_c::printing::{Text, no_text};
use crate::proved::ratio_c::reading::Span;
use crate::proved::ratio_c::rounded::rule_of;
use bakhsney::proved::ratio_slots::{
    ReadRefusal, Slot, count_free, decimal_bytes_of, decimal_digits_of, digits_of_multiple,
    digits_of_read, mean_of, multiple_of, put_decimal_of, sign_of, sum_of,
};

/// The code of a read that was refused.
#[inline]
pub(crate) fn code_of(why: ReadRefusal) -> u32 {
    match why {
        ReadRefusal::MoreRoom => MORE_ROOM,
        ReadRefusal::TooLong => TOO_LONG,
    }
}

/// The two numbers in 64 bits, or `None` if one does not fit.
#[inline]
pub(crate) fn narrowed(terms: Option<(i128, u64)>) -> Option<(i64, i64)> {
    match terms {
        Some((numer, denom)) => cast::<i128, i64>(numer, denom as i128),
        None => None,
    }
}

/// The sum of the slots.
#[inline]
fn sum_answer(slots: &[Slot], room: &mut [u64]) -> Answer64 {
    match sum_of(slots, room) {
        Ok(sum) => checked(narrowed(sum)),
        Err(why) => refused(code_of(why)),
    }
}

/// The mean of so many fractions in the slots.
#[inline]
fn mean_answer(slots: &[Slot], count: i64, room: &mut [u64]) -> Answer64 {
    if count <= 0 {
        return refused(DIVISION_BY_ZERO);
    }
    match mean_of(slots, count, room) {
        Ok(mean) => checked(narrowed(mean)),
        Err(why) => refused(code_of(why)),
    }
}

/// The order of the sum of the slots and 0.
#[inline]
fn sign_answer(slots: &[Slot], room: &mut [u64]) -> Order {
    match sign_of(slots, room) {
        Ok(order) => Order {
            code: ANSWERED,
            order: number_of(order),
        },
        Err(why) => Order {
            code: code_of(why),
            order: 0,
        },
    }
}

/// The sum of the slots as a decimal, which ends where `texts` ends.
#[inline]
fn print_answer(slots: &[Slot], places: u32, rule: u32, room: &mut [u64], texts: &mut [u8]) -> Text {
    let end = texts.len();
    let rounding = match rule_of(rule) {
        Some(rounding) => rounding,
        _ => {
            return no_text(BAD_OPTION, end);
        }
    };
    match put_decimal_of(slots, places, rounding, room, texts) {
        Ok(start) => Text {
            code: ANSWERED,
            span: Span { start, end },
        },
        Err(why) => no_text(code_of(why), end),
    }
}

/// How many slots are empty.
#[no_mangle]
pub unsafe extern "C" fn ratio_total_free_i64(slots: *const Slot, slots_len: usize) -> u64 {
    // SAFETY: the header says what the caller owes for each pointer and its length.
    let slots = crate::items(slots, slots_len);
    count_free(slots) as u64
}

/// How many digits of room the sum, the mean, the sign and the float need.
#[no_mangle]
pub unsafe extern "C" fn ratio_total_digits_i64(slots: *const Slot, slots_len: usize) -> u64 {
    // SAFETY: the header says what the caller owes for each pointer and its length.
    let slots = crate::items(slots, slots_len);
    digits_of_read(slots) as u64
}

/// How many digits of room the decimal with so many places needs.
#[no_mangle]
pub unsafe extern "C" fn ratio_total_print_digits_i64(slots: *const Slot, slots_len: usize, places: u32) -> u64 {
    // SAFETY: the header says what the caller owes for each pointer and its length.
    let slots = crate::items(slots, slots_len);
    decimal_digits_of(slots, places) as u64
}

/// How many bytes the decimal with so many places needs.
#[no_mangle]
pub unsafe extern "C" fn ratio_total_print_bytes_i64(slots: *const Slot, slots_len: usize, places: u32) -> u64 {
    // SAFETY: the header says what the caller owes for each pointer and its length.
    let slots = crate::items(slots, slots_len);
    decimal_bytes_of(slots, places) as u64
}

/// The sum.
#[no_mangle]
pub unsafe extern "C" fn ratio_total_sum_i64(slots: *const Slot, slots_len: usize, room: *mut u64, room_len: usize, answers: *mut Answer64, answers_len: usize) -> u32 {
    // SAFETY: the header says what the caller owes for each pointer and its length.
    let slots = crate::items(slots, slots_len);
    let room = crate::items_mut(room, room_len);
    let answers = crate::items_mut(answers, answers_len);
    if answers.len() != 1 {
        return BAD_LENGTH;
    }
    answers[0] = sum_answer(slots, room);
    DONE
}

/// The mean of so many fractions.
#[no_mangle]
pub unsafe extern "C" fn ratio_total_mean_i64(slots: *const Slot, slots_len: usize, count: i64, room: *mut u64, room_len: usize, answers: *mut Answer64, answers_len: usize) -> u32 {
    // SAFETY: the header says what the caller owes for each pointer and its length.
    let slots = crate::items(slots, slots_len);
    let room = crate::items_mut(room, room_len);
    let answers = crate::items_mut(answers, answers_len);
    if answers.len() != 1 {
        return BAD_LENGTH;
    }
    answers[0] = mean_answer(slots, count, room);
    DONE
}

/// The order of the sum and 0.
#[no_mangle]
pub unsafe extern "C" fn ratio_total_sign_i64(slots: *const Slot, slots_len: usize, room: *mut u64, room_len: usize, answers: *mut Order, answers_len: usize) -> u32 {
    // SAFETY: the header says what the caller owes for each pointer and its length.
    let slots = crate::items(slots, slots_len);
    let room = crate::items_mut(room, room_len);
    let answers = crate::items_mut(answers, answers_len);
    if answers.len() != 1 {
        return BAD_LENGTH;
    }
    answers[0] = sign_answer(slots, room);
    DONE
}

/// The sum as a decimal with so many places by a rule.
#[no_mangle]
pub unsafe extern "C" fn ratio_total_print_i64(slots: *const Slot, slots_len: usize, places: u32, rule: u32, room: *mut u64, room_len: usize, texts: *mut u8, texts_len: usize, answers: *mut Text, answers_len: usize) -> u32 {
    // SAFETY: the header says what the caller owes for each pointer and its length.
    let slots = crate::items(slots, slots_len);
    let room = crate::items_mut(room, room_len);
    let texts = crate::items_mut(texts, texts_len);
    let answers = crate::items_mut(answers, answers_len);
    if answers.len() != 1 {
        return BAD_LENGTH;
    }
    answers[0] = print_answer(slots, places, rule, room, texts);
    DONE
}

/// The multiple of `1/parts` that the rule says of the sum of the slots.
#[inline]
fn multiple_answer(slots: &[Slot], parts: i64, rule: u32, room: &mut [u64]) -> Answer64 {
    if parts <= 0 {
        return refused(BAD_OPTION);
    }
    let rounding = match rule_of(rule) {
        Some(rounding) => rounding,
        _ => {
            return refused(BAD_OPTION);
        }
    };
    match multiple_of(slots, parts as u64, rounding, room) {
        Ok(multiple) => checked(narrowed(multiple)),
        Err(why) => refused(code_of(why)),
    }
}

/// How many digits of room a multiple needs.
#[no_mangle]
pub unsafe extern "C" fn ratio_total_round_to_digits_i64(slots: *const Slot, slots_len: usize) -> u64 {
    // SAFETY: the header says what the caller owes for each pointer and its length.
    let slots = crate::items(slots, slots_len);
    digits_of_multiple(slots) as u64
}

/// The multiple of `1/parts` that a rule says of the sum.
#[no_mangle]
pub unsafe extern "C" fn ratio_total_round_to_i64(slots: *const Slot, slots_len: usize, parts: i64, rule: u32, room: *mut u64, room_len: usize, answers: *mut Answer64, answers_len: usize) -> u32 {
    // SAFETY: the header says what the caller owes for each pointer and its length.
    let slots = crate::items(slots, slots_len);
    let room = crate::items_mut(room, room_len);
    let answers = crate::items_mut(answers, answers_len);
    if answers.len() != 1 {
        return BAD_LENGTH;
    }
    answers[0] = multiple_answer(slots, parts, rule, room);
    DONE
}
