// Erased from crates/ratio_c/src/totals.rt by rust/erase: not to be edited.
//! The struct `Total64`, the header of a total, and how items, or the slots of another total, go into its slots one after another, until one is stopped.

use crate::proved::ratio_c::code::{ANSWERED, DENOMINATOR_NOT_POSITIVE, MORE_ROOM, NO_TOTAL, NOT_HELD};
use crate::proved::ratio_c::each::{BAD_LENGTH, DONE};
use crate::proved::ratio_c::numbers64::Fraction64;
use bakhsney::proved::ratio_integer::Integer;
use bakhsney::proved::ratio_slots::{LooseRefusal, Slot, put_loose};

/// What the last call did to a total, and how many fractions are in it. Its fractions are in its slots.
#[repr(C)]
pub struct Total64 {
    pub code: u32,
    pub done: u64,
    pub count: i64,
}

/// Whether items go into a total, or out of it.
#[derive(Clone, Copy)]
pub enum Way {
    In,
    Out,
}

/// What an item brings: `numer/denom`, and how many fractions that is. If `denom` is 0, it brings nothing.
#[derive(Clone, Copy)]
pub struct Piece {
    pub numer: i128,
    pub denom: u64,
    pub count: i64,
}

/// Why an item did not go in or out.
#[derive(Clone, Copy)]
pub enum Stop {
    /// Its denominator is not positive.
    NotPositive,
    /// Each slot holds another denominator.
    MoreRoom,
    /// The empty slot where it goes has a numerator that is not 0.
    NotEmpty,
    /// The numerator does not fit in 128 bits, or the count does not fit in 64.
    NotHeld,
}

/// An item of a call on totals: a fraction, or a slot of another total.
pub trait Brings {
    /// What it brings, or `None` if its denominator is not positive.
    fn brings(&self) -> Option<Piece>;
}

impl Brings for Fraction64 {
    #[inline(always)]
    fn brings(&self) -> Option<Piece> {
        if self.denom <= 0 {
            return None;
        }
        Some(Piece {
            numer: self.numer as i128,
            denom: self.denom as u64,
            count: 1,
        })
    }
}

impl Brings for Slot {
    #[inline(always)]
    fn brings(&self) -> Option<Piece> {
        Some(Piece {
            numer: self.numer(),
            denom: self.denom(),
            count: 0,
        })
    }
}

/// The number as it goes in, or its negative as it goes out; `None` if that does not fit.
#[inline(always)]
fn way_of(way: Way, n: i128) -> Option<i128> {
    match way {
        Way::In => Some(n),
        Way::Out => 0i128.checked_sub(n),
    }
}

/// The count after so many more fractions went in, or went out; `None` if it does not fit.
#[inline(always)]
fn counted(way: Way, count: i64, more: i64) -> Option<i64> {
    let sum = match way {
        Way::In => count as i128 + more as i128,
        Way::Out => count as i128 - more as i128,
    };
    i64::from_i128(sum)
}

/// One item goes into the slots, or out of them. The result is the new count.
#[inline(always)]
fn step<I: Brings>(way: Way, item: &I, count: i64, slots: &mut [Slot]) -> Result<i64, Stop> {
    let piece = match item.brings() {
        Some(piece) => piece,
        _ => {
            return Err(Stop::NotPositive);
        }
    };
    if piece.denom == 0 {
        return Ok(count);
    }
    let numer = match way_of(way, piece.numer) {
        Some(numer) => numer,
        _ => {
            return Err(Stop::NotHeld);
        }
    };
    let next = match counted(way, count, piece.count) {
        Some(next) => next,
        _ => {
            return Err(Stop::NotHeld);
        }
    };
    match put_loose(slots, numer, piece.denom) {
        Ok(()) => Ok(next),
        Err(LooseRefusal::MoreRoom) => Err(Stop::MoreRoom),
        Err(LooseRefusal::NotEmpty) => Err(Stop::NotEmpty),
        Err(LooseRefusal::TooGreat) => Err(Stop::NotHeld),
    }
}

/// The code of a stop.
#[inline]
fn code_of(why: Stop) -> u32 {
    match why {
        Stop::NotPositive => DENOMINATOR_NOT_POSITIVE,
        Stop::MoreRoom => MORE_ROOM,
        Stop::NotEmpty => NO_TOTAL,
        Stop::NotHeld => NOT_HELD,
    }
}

/// The items go one after another, until one is stopped. The result is the new header.
#[inline(always)]
fn go<I: Brings>(way: Way, asked: &[I], count: i64, slots: &mut [Slot]) -> Total64 {
    let mut count = count;
    for i in 0..asked.len() {
        match step(way, &asked[i], count, slots) {
            Ok(next) => {
                count = next;
            }
            Err(why) => {
                return Total64 {
                    code: code_of(why),
                    done: i as u64,
                    count,
                };
            }
        }
    }
    Total64 {
        code: ANSWERED,
        done: asked.len() as u64,
        count,
    }
}

/// The header with the count of another total, if all its slots are done.
#[inline]
fn with_count(way: Way, total: Total64, more: i64) -> Total64 {
    if total.code != ANSWERED {
        return total;
    }
    match counted(way, total.count, more) {
        Some(count) => Total64 {
            code: ANSWERED,
            done: total.done,
            count,
        },
        None => Total64 {
            code: NOT_HELD,
            done: total.done,
            count: total.count,
        },
    }
}

/// The items go into the one total of the slice, or out of it. If the slice has not just one, it returns `BAD_LENGTH` and writes nothing.
#[inline(always)]
pub fn gather<I: Brings>(way: Way, asked: &[I], total: &mut [Total64], slots: &mut [Slot]) -> u32 {
    if total.len() != 1 {
        return BAD_LENGTH;
    }
    total[0] = go(way, asked, total[0].count, slots);
    DONE
}

/// The slots of another total, and then its count, go into the one total of the slice, or out of it.
#[inline(always)]
pub fn pour(way: Way, asked: &[Slot], more: i64, total: &mut [Total64], slots: &mut [Slot]) -> u32 {
    if total.len() != 1 {
        return BAD_LENGTH;
    }
    total[0] = with_count(way, go(way, asked, total[0].count, slots), more);
    DONE
}
