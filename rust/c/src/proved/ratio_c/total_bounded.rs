// Erased from crates/ratio_c/src/total_bounded.rt by rust/erase: not to be edited.
//! The call for C that prints a total from the bounds of its sum, in one pass.

use crate::proved::ratio_c::code::{ANSWERED, BAD_OPTION, MORE_ROOM, NOT_HELD};
use crate::proved::ratio_c::each::{BAD_LENGTH, DONE};
use crate::proved::ratio_c::printing::{Text, no_text};
use crate::proved::ratio_c::reading::Span;
use crate::proved::ratio_c::rounded::rule_of;
use bakhsney::proved::ratio_slots::{Slot, put_bounded_of};

/// The sum of the slots as a decimal, which ends where `texts` ends, from the bounds of the sum.
#[inline]
fn bounded_answer(
    slots: &[Slot],
    places: u32,
    rule: u32,
    room: &mut [u64],
    texts: &mut [u8],
) -> Text {
    let end = texts.len();
    let rounding = match rule_of(rule) {
        Some(rounding) => rounding,
        _ => {
            return no_text(BAD_OPTION, end);
        }
    };
    match put_bounded_of(slots, places, rounding, room, texts) {
        Ok(Some(start)) => Text {
            code: ANSWERED,
            span: Span { start, end },
        },
        Ok(None) => no_text(NOT_HELD, end),
        Err(_) => no_text(MORE_ROOM, end),
    }
}

/// The sum as a decimal with so many places by a rule, in one pass.
#[no_mangle]
pub unsafe extern "C" fn ratio_total_print_bounded_i64(slots: *const Slot, slots_len: usize, places: u32, rule: u32, room: *mut u64, room_len: usize, texts: *mut u8, texts_len: usize, answers: *mut Text, answers_len: usize) -> u32 {
    // SAFETY: the header says what the caller owes for each pointer and its length.
    let slots = crate::items(slots, slots_len);
    let room = crate::items_mut(room, room_len);
    let texts = crate::items_mut(texts, texts_len);
    let answers = crate::items_mut(answers, answers_len);
    if answers.len() != 1 {
        return BAD_LENGTH;
    }
    answers[0] = bounded_answer(slots, places, rule, room, texts);
    DONE
}
