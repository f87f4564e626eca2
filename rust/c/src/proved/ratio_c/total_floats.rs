// Erased from crates/ratio_c/src/total_floats.rt by rust/erase: not to be edited.
//! The call for C that reads a total as a float.

use crate::proved::ratio_c::code::ANSWERED;
use crate::proved::ratio_c::each::{BAD_LENGTH, DONE};
use crate::proved::ratio_c::floats::Float;
use crate::proved::ratio_c::total_reads::code_of;
use bakhsney::proved::ratio_slots::{Slot, float_of};

/// The float nearest to the sum of the slots.
#[inline]
fn float_answer(slots: &[Slot], room: &mut [u64]) -> Float {
    match float_of(slots, room) {
        Ok(value) => Float {
            code: ANSWERED,
            value,
        },
        Err(why) => Float {
            code: code_of(why),
            value: 0.0,
        },
    }
}

/// The float nearest to the sum.
#[no_mangle]
pub unsafe extern "C" fn ratio_total_to_f64_i64(slots: *const Slot, slots_len: usize, room: *mut u64, room_len: usize, answers: *mut Float, answers_len: usize) -> u32 {
    // SAFETY: the header says what the caller owes for each pointer and its length.
    let slots = crate::items(slots, slots_len);
    let room = crate::items_mut(room, room_len);
    let answers = crate::items_mut(answers, answers_len);
    if answers.len() != 1 {
        return BAD_LENGTH;
    }
    answers[0] = float_answer(slots, room);
    DONE
}
