// Erased from crates/ratio_c/src/strided.rt by rust/erase: not to be edited.
//! Calls for C on pairs whose fractions lie apart in memory, such as the answers of another call.

use crate::proved::ratio_c::arithmetic::{Difference, Product, Quotient, Sum};
use crate::proved::ratio_c::compare::{Comparison, Order};
use crate::proved::ratio_c::each::{BAD_LENGTH, Call, DONE};
use crate::proved::ratio_c::numbers64::{Answer64, Fraction64, Pair64};

/// Writes the answer for each pair, if both lists of words have as many fractions as there are answers.
#[inline(always)]
pub fn each_strided<C: Call<Pair64, B>, B>(
    call: &C,
    left: &[i64],
    left_stride: usize,
    right: &[i64],
    right_stride: usize,
    answers: &mut [B],
) -> u32 {
    let count = answers.len();
    if !reaches(left, left_stride, count) || !reaches(right, right_stride, count) {
        return BAD_LENGTH;
    }
    for i in 0..count {
        let pair = Pair64 {
            left: fraction_at(left, left_stride, i),
            right: fraction_at(right, right_stride, i),
        };
        answers[i] = call.answer(&pair);
    }
    DONE
}

/// Whether the words have so many fractions, each so many words after the one before.
#[inline(always)]
fn reaches(words: &[i64], stride: usize, count: usize) -> bool {
    if count == 0 {
        return true;
    }
    if words.len() < 2 {
        return false;
    }
    stride == 0 || count - 1 <= (words.len() - 2) / stride
}

/// The fraction at a place.
///
/// # Conditions
///
/// The proof requires of the caller:
///
/// - `place * stride + 1 < length words.now`
#[inline(always)]
fn fraction_at(words: &[i64], stride: usize, place: usize) -> Fraction64 {
    let first = place * stride;
    Fraction64 {
        numer: words[first],
        denom: words[first + 1],
    }
}

/// The sum of each pair, whose fractions lie apart.
#[no_mangle]
pub unsafe extern "C" fn ratio_add_strided_i64(left: *const i64, left_len: usize, left_stride: u64, right: *const i64, right_len: usize, right_stride: u64, answers: *mut Answer64, answers_len: usize) -> u32 {
    // SAFETY: the header says what the caller owes for each pointer and its length.
    let left = crate::items(left, left_len);
    let right = crate::items(right, right_len);
    let answers = crate::items_mut(answers, answers_len);
    each_strided(
        &Sum,
        left,
        left_stride as usize,
        right,
        right_stride as usize,
        answers,
    )
}

/// The difference of each pair, whose fractions lie apart.
#[no_mangle]
pub unsafe extern "C" fn ratio_sub_strided_i64(left: *const i64, left_len: usize, left_stride: u64, right: *const i64, right_len: usize, right_stride: u64, answers: *mut Answer64, answers_len: usize) -> u32 {
    // SAFETY: the header says what the caller owes for each pointer and its length.
    let left = crate::items(left, left_len);
    let right = crate::items(right, right_len);
    let answers = crate::items_mut(answers, answers_len);
    each_strided(
        &Difference,
        left,
        left_stride as usize,
        right,
        right_stride as usize,
        answers,
    )
}

/// The product of each pair, whose fractions lie apart.
#[no_mangle]
pub unsafe extern "C" fn ratio_mul_strided_i64(left: *const i64, left_len: usize, left_stride: u64, right: *const i64, right_len: usize, right_stride: u64, answers: *mut Answer64, answers_len: usize) -> u32 {
    // SAFETY: the header says what the caller owes for each pointer and its length.
    let left = crate::items(left, left_len);
    let right = crate::items(right, right_len);
    let answers = crate::items_mut(answers, answers_len);
    each_strided(
        &Product,
        left,
        left_stride as usize,
        right,
        right_stride as usize,
        answers,
    )
}

/// The quotient of each pair, whose fractions lie apart.
#[no_mangle]
pub unsafe extern "C" fn ratio_div_strided_i64(left: *const i64, left_len: usize, left_stride: u64, right: *const i64, right_len: usize, right_stride: u64, answers: *mut Answer64, answers_len: usize) -> u32 {
    // SAFETY: the header says what the caller owes for each pointer and its length.
    let left = crate::items(left, left_len);
    let right = crate::items(right, right_len);
    let answers = crate::items_mut(answers, answers_len);
    each_strided(
        &Quotient,
        left,
        left_stride as usize,
        right,
        right_stride as usize,
        answers,
    )
}

/// The order of each pair, whose fractions lie apart.
#[no_mangle]
pub unsafe extern "C" fn ratio_compare_strided_i64(left: *const i64, left_len: usize, left_stride: u64, right: *const i64, right_len: usize, right_stride: u64, answers: *mut Order, answers_len: usize) -> u32 {
    // SAFETY: the header says what the caller owes for each pointer and its length.
    let left = crate::items(left, left_len);
    let right = crate::items(right, right_len);
    let answers = crate::items_mut(answers, answers_len);
    each_strided(
        &Comparison,
        left,
        left_stride as usize,
        right,
        right_stride as usize,
        answers,
    )
}
