// Erased from crates/ratio_totals/src/wide_total.rt by rust/erase: not to be edited.
//! The struct `WideTotal`, a total of fractions over any primitive type, which loses nothing: how it begins, counts, and moves to another
//! room.

use crate::proved::ratio_integer::Primitive;
use crate::proved::ratio_slots::Joined;
use core::marker::PhantomData;

/// A total of fractions over any primitive type, also one of 128 bits, as one sum in a room that the caller gives. 1/36 and 1/28 are
/// 16/252 in it: the common denominator is the least common multiple of all.
///
/// `joined.digits` numbers of the room are for the common denominator. `joined.done` is the weight of the total, the number of additions.
pub struct WideTotal<'a, T> {
    pub room: &'a mut [u64],
    pub joined: Joined,
    pub count: i64,
    of: PhantomData<T>,
}

/// The free digits are too few for a read of a wide total, or the bytes for its text.
#[derive(Clone, Copy, PartialEq, Eq, Debug)]
pub struct ShortRoom;

impl<'a, T: Primitive> WideTotal<'a, T> {
    /// The total of no fractions, with so many digits for the common denominator. It is `None` exactly if `digits` is below 2 or above
    /// `MOST_DIGITS`, or if the room has fewer than `4 * digits + 6` digits.
    #[inline]
    pub fn new(digits: usize, room: &'a mut [u64]) -> Option<WideTotal<'a, T>> {
        if digits < 2 {
            return None;
        }
        let joined = Joined::zero(digits, room)?;
        Some(WideTotal {
            room,
            joined,
            count: 0,
            of: PhantomData,
        })
    }

    /// This total moved to another room, with so many digits for the common denominator, such as more of them. It is refused exactly if
    /// `digits` is below those of this total or above `MOST_DIGITS`, or if the room has fewer than `4 * digits + 6` digits.
    #[inline]
    pub fn moved_to<'b>(
        &self,
        digits: usize,
        room: &'b mut [u64],
    ) -> Result<WideTotal<'b, T>, ShortRoom> {
        let joined = match self.joined.moved_to(self.room, digits, room) {
            Some(joined) => joined,
            _ => {
                return Err(ShortRoom);
            }
        };
        Ok(WideTotal {
            room,
            joined,
            count: self.count,
            of: PhantomData,
        })
    }

    /// How many fractions went into the wide total, less those that went out.
    #[inline]
    pub fn count(&self) -> i64 {
        self.count
    }
}
