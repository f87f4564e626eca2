// Erased from crates/ratio_c/src/total_joining.rt by rust/erase: not to be edited.
//! The struct `Joined64`, the header of a read in steps, and the call for C that joins some slots of a total at a time.

use crate::proved::ratio_c::code::{ANSWERED, MORE_ROOM, NO_TOTAL, TOO_LONG};
use crate::proved::ratio_c::each::{BAD_LENGTH, DONE};
use bakhsney::proved::ratio_slots::{JoinRefusal, Joined, Slot};

/// How far a read in steps has come, and what the last step said. If no slot is joined and there are no digits, the read has not begun.
#[repr(C)]
pub struct Joined64 {
    pub code: u32,
    pub done: u64,
    pub digits: u64,
}

/// Why a step was stopped.
#[derive(Clone, Copy)]
pub enum JoinStop {
    /// The room is too short to begin.
    MoreRoom,
    /// The room does not look as the last step left it.
    NotJoined,
    /// The common denominator is not below 2^(2^20), if nothing changed the room.
    TooLong,
}

/// The read, which begins here if it has not begun. It is `None` if the room is too short to begin.
#[inline]
fn begun(slots: &[Slot], from: Joined, room: &mut [u64]) -> Option<Joined> {
    if from.done == 0 && from.digits == 0 {
        Joined::begin(slots, room)
    } else {
        Some(from)
    }
}

/// At most so many more slots are joined, after the read has begun.
#[inline]
fn step(slots: &[Slot], most: usize, from: Joined, room: &mut [u64]) -> Result<Joined, JoinStop> {
    let read = match begun(slots, from, room) {
        Some(read) => read,
        _ => {
            return Err(JoinStop::MoreRoom);
        }
    };
    match read.go_on(slots, most, room) {
        Ok(next) => Ok(next),
        Err(JoinRefusal::NotJoined) => Err(JoinStop::NotJoined),
        Err(JoinRefusal::TooLong) => Err(JoinStop::TooLong),
    }
}

/// The code of a stop.
#[inline]
fn code_of(why: JoinStop) -> u32 {
    match why {
        JoinStop::MoreRoom => MORE_ROOM,
        JoinStop::NotJoined => NO_TOTAL,
        JoinStop::TooLong => TOO_LONG,
    }
}

/// The header after a step. Where that was stopped, only its code is new.
#[inline]
fn join_answer(slots: &[Slot], most: u64, old: &Joined64, room: &mut [u64]) -> Joined64 {
    let from = Joined {
        done: old.done as usize,
        digits: old.digits as usize,
    };
    match step(slots, most as usize, from, room) {
        Ok(next) => Joined64 {
            code: ANSWERED,
            done: next.done as u64,
            digits: next.digits as u64,
        },
        Err(why) => Joined64 {
            code: code_of(why),
            done: old.done,
            digits: old.digits,
        },
    }
}

/// Joins further slots of the total in the room, at most so many. A header with no slot joined and no digits begins the read.
#[no_mangle]
pub unsafe extern "C" fn ratio_total_join_i64(slots: *const Slot, slots_len: usize, most: u64, joined: *mut Joined64, joined_len: usize, room: *mut u64, room_len: usize) -> u32 {
    // SAFETY: the header says what the caller owes for each pointer and its length.
    let slots = crate::items(slots, slots_len);
    let joined = crate::items_mut(joined, joined_len);
    let room = crate::items_mut(room, room_len);
    if joined.len() != 1 {
        return BAD_LENGTH;
    }
    joined[0] = join_answer(slots, most, &joined[0], room);
    DONE
}
