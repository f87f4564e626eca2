// Erased from crates/ratio_c/src/many.rt by rust/erase: not to be edited.
//! The call for C that multiplies many fractions and divides by many, where no number on the way has to fit.

use crate::proved::ratio_c::code::{DENOMINATOR_NOT_POSITIVE, DIVISION_BY_ZERO, MORE_ROOM};
use crate::proved::ratio_c::crossing::{checked, refused};
use crate::proved::ratio_c::each::{BAD_LENGTH, DONE};
use crate::proved::ratio_c::numbers64::{Answer64, Fraction64};
use bakhsney::proved::ratio_core::products::many_products;

// Whether each denominator is positive.
#[inline]
pub(crate) fn are_positive(items: &[Fraction64]) -> bool {
    items.iter().all(|x| 0 < x.denom)
}

// Whether no fraction is 0.
#[inline]
fn are_not_zero(items: &[Fraction64]) -> bool {
    items.iter().all(|x| x.numer != 0)
}

// Whether there is room for two numbers an item.
#[inline]
fn has_room(above: usize, below: usize, room: usize) -> bool {
    let half = room / 2;
    above <= half && below <= half - above
}

// Writes the numerators and the denominators of the items.
#[inline]
fn put_numbers(items: &[Fraction64], numers: &mut [i64], denoms: &mut [i64]) {
    for (i, x) in items.iter().enumerate() {
        numers[i] = x.numer;
        denoms[i] = x.denom;
    }
}

// The product of the fractions above divided by each below, or `None` if its lowest terms do not fit.
#[inline]
fn quotient(above: &[Fraction64], below: &[Fraction64], room: &mut [i64]) -> Option<(i64, i64)> {
    let count = above.len() + below.len();
    let (upper, others) = room.split_at_mut(count);
    let (lower, _) = others.split_at_mut(count);
    let (numers, turned_denoms) = upper.split_at_mut(above.len());
    let (denoms, turned_numers) = lower.split_at_mut(above.len());
    put_numbers(above, numers, denoms);
    put_numbers(below, turned_numers, turned_denoms);
    many_products::checked_quotient_of_products(upper, lower)
}

// The quotient, or the code that says why there is none.
#[inline]
fn quotient_answer(above: &[Fraction64], below: &[Fraction64], room: &mut [i64]) -> Answer64 {
    if !has_room(above.len(), below.len(), room.len()) {
        return refused(MORE_ROOM);
    }
    if !are_positive(above) || !are_positive(below) {
        return refused(DENOMINATOR_NOT_POSITIVE);
    }
    if !are_not_zero(below) {
        return refused(DIVISION_BY_ZERO);
    }
    checked(quotient(above, below, room))
}

/// The product of the fractions above divided by each fraction below.
#[no_mangle]
pub unsafe extern "C" fn ratio_quotient_of_i64(above: *const Fraction64, above_len: usize, below: *const Fraction64, below_len: usize, room: *mut i64, room_len: usize, answers: *mut Answer64, answers_len: usize) -> u32 {
    // SAFETY: the header says what the caller owes for each pointer and its length.
    let above = crate::items(above, above_len);
    let below = crate::items(below, below_len);
    let room = crate::items_mut(room, room_len);
    let answers = crate::items_mut(answers, answers_len);
    if answers.len() != 1 {
        return BAD_LENGTH;
    }
    answers[0] = quotient_answer(above, below, room);
    DONE
}
