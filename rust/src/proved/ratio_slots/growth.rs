// Erased from crates/ratio_slots/src/growth.rt by rust/erase: not to be edited.
//! How a total grows: the length of its next table, and the slots that move there.

use crate::proved::ratio_slots::slots::Slot;

/// The slots of the smallest table.
const FEWEST: u128 = 8;

/// How many slots the next table of a total has, where so many slots are taken and so many more denominators will come. It has twice as
/// many slots as are needed, and at least 8. By `chance`, any number that others cannot know, it has up to an eighth more. In a table of
/// another length, other denominators collide. So nobody can choose denominators that make each search long. It is `None` where the
/// length would be above `most`.
#[inline]
pub fn next_length(taken: u64, more: u64, chance: u64, most: u64) -> Option<u64> {
    let twice = 2 * (taken as u128 + more as u128);
    let fewest = if twice < FEWEST { FEWEST } else { twice };
    let length = fewest + chance as u128 % (fewest / 8 + 1);
    if length > most as u128 {
        return None;
    }
    Some(length as u64)
}

/// Leaves out the fractions that are 0, such as those that went in and out again. The others move to the front, in the order that they
/// had, and the slots behind them become empty. The sum stays. It returns how many fractions are left.
///
/// The slots are no table afterwards: a search may miss a denominator that they hold. Put what is left into another table.
#[inline]
pub fn leave_zeros(slots: &mut [Slot]) -> usize {
    let mut left = 0;
    for i in 0..slots.len() {
        let slot = slots[i];
        slots[i] = Slot::EMPTY;
        if !is_nonzero(slot) {
            continue;
        }
        slots[left] = slot;
        left += 1;
    }
    left
}

// Whether the slot holds a fraction that is not 0.
#[inline]
fn is_nonzero(slot: Slot) -> bool {
    slot.denom() != 0 && slot.numer() != 0
}
