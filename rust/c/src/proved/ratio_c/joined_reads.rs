// Erased from crates/ratio_c/src/joined_reads.rt by rust/erase: not to be edited.
//! The calls for C that read a total from the room where all its slots are joined: its sum, its mean, its sign, its float and its decimal.

use crate::proved::ratio_c::code::{ANSWERED, BAD_OPTION, DIVISION_BY_ZERO, NO_TOTAL};
use crate::proved::ratio_c::compare::{Order, number_of};
use crate::proved::ratio_c::crossing::{checked, refused};
use crate::proved::ratio_c::each::{BAD_LENGTH, DONE};
use crate::proved::ratio_c::floats::Float;
use crate::proved::ratio_c::numbers64::Answer64;
use crate::proved::ratio_c::printing::{Text, no_text};
use crate::proved::ratio_c::reading::Span;
use crate::proved::ratio_c::rounded::rule_of;
use crate::proved::ratio_c::total_reads::narrowed;
use bakhsney::proved::ratio_slots::{Joined, NoSum};

/// A read in a room with so many digits for the common denominator. How many slots are joined does not matter to it.
#[inline]
fn read_in(digits: u64) -> Joined {
    Joined {
        done: 0,
        digits: digits as usize,
    }
}

/// The fraction in the room.
#[inline]
fn sum_answer(digits: u64, room: &mut [u64]) -> Answer64 {
    match read_in(digits).sum(room) {
        Ok(sum) => checked(narrowed(sum)),
        Err(NoSum) => refused(NO_TOTAL),
    }
}

/// The fraction in the room divided by the count.
#[inline]
fn mean_answer(digits: u64, count: i64, room: &mut [u64]) -> Answer64 {
    if count <= 0 {
        return refused(DIVISION_BY_ZERO);
    }
    match read_in(digits).mean(count, room) {
        Ok(mean) => checked(narrowed(mean)),
        Err(NoSum) => refused(NO_TOTAL),
    }
}

/// The order of the fraction in the room and 0.
#[inline]
fn sign_answer(digits: u64, room: &mut [u64]) -> Order {
    match read_in(digits).sign(room) {
        Ok(order) => Order {
            code: ANSWERED,
            order: number_of(order),
        },
        Err(NoSum) => Order {
            code: NO_TOTAL,
            order: 0,
        },
    }
}

/// The float nearest to the fraction in the room.
#[inline]
fn float_answer(digits: u64, room: &mut [u64]) -> Float {
    match read_in(digits).to_f64(room) {
        Ok(value) => Float {
            code: ANSWERED,
            value,
        },
        Err(NoSum) => Float {
            code: NO_TOTAL,
            value: 0.0,
        },
    }
}

/// The fraction in the room as a decimal, which ends where `texts` ends.
#[inline]
fn print_answer(digits: u64, places: u32, rule: u32, room: &mut [u64], texts: &mut [u8]) -> Text {
    let end = texts.len();
    let rounding = match rule_of(rule) {
        Some(rounding) => rounding,
        _ => {
            return no_text(BAD_OPTION, end);
        }
    };
    match read_in(digits).put_decimal(places, rounding, room, texts) {
        Ok(start) => Text {
            code: ANSWERED,
            span: Span { start, end },
        },
        Err(NoSum) => no_text(NO_TOTAL, end),
    }
}

/// The sum.
#[no_mangle]
pub unsafe extern "C" fn ratio_joined_sum_i64(digits: u64, room: *mut u64, room_len: usize, answers: *mut Answer64, answers_len: usize) -> u32 {
    // SAFETY: the header says what the caller owes for each pointer and its length.
    let room = crate::items_mut(room, room_len);
    let answers = crate::items_mut(answers, answers_len);
    if answers.len() != 1 {
        return BAD_LENGTH;
    }
    answers[0] = sum_answer(digits, room);
    DONE
}

/// The mean of so many fractions.
#[no_mangle]
pub unsafe extern "C" fn ratio_joined_mean_i64(digits: u64, count: i64, room: *mut u64, room_len: usize, answers: *mut Answer64, answers_len: usize) -> u32 {
    // SAFETY: the header says what the caller owes for each pointer and its length.
    let room = crate::items_mut(room, room_len);
    let answers = crate::items_mut(answers, answers_len);
    if answers.len() != 1 {
        return BAD_LENGTH;
    }
    answers[0] = mean_answer(digits, count, room);
    DONE
}

/// The order of the sum and 0.
#[no_mangle]
pub unsafe extern "C" fn ratio_joined_sign_i64(digits: u64, room: *mut u64, room_len: usize, answers: *mut Order, answers_len: usize) -> u32 {
    // SAFETY: the header says what the caller owes for each pointer and its length.
    let room = crate::items_mut(room, room_len);
    let answers = crate::items_mut(answers, answers_len);
    if answers.len() != 1 {
        return BAD_LENGTH;
    }
    answers[0] = sign_answer(digits, room);
    DONE
}

/// The float nearest to the sum.
#[no_mangle]
pub unsafe extern "C" fn ratio_joined_to_f64_i64(digits: u64, room: *mut u64, room_len: usize, answers: *mut Float, answers_len: usize) -> u32 {
    // SAFETY: the header says what the caller owes for each pointer and its length.
    let room = crate::items_mut(room, room_len);
    let answers = crate::items_mut(answers, answers_len);
    if answers.len() != 1 {
        return BAD_LENGTH;
    }
    answers[0] = float_answer(digits, room);
    DONE
}

/// The sum as a decimal with so many places by a rule.
#[no_mangle]
pub unsafe extern "C" fn ratio_joined_print_i64(digits: u64, places: u32, rule: u32, room: *mut u64, room_len: usize, texts: *mut u8, texts_len: usize, answers: *mut Text, answers_len: usize) -> u32 {
    // SAFETY: the header says what the caller owes for each pointer and its length.
    let room = crate::items_mut(room, room_len);
    let texts = crate::items_mut(texts, texts_len);
    let answers = crate::items_mut(answers, answers_len);
    if answers.len() != 1 {
        return BAD_LENGTH;
    }
    answers[0] = print_answer(digits, places, rule, room, texts);
    DONE
}
