// Erased from crates/ratio_slots/src/changes.rt by rust/erase: not to be edited.
//! What goes into slots and out of them: one fraction, those of another table, all of a table that moves, and one fraction where the slots
//! may hold anything.

use crate::proved::ratio_slots::slots::{Slot, clear, count_free, count_new, denom_at, find, grow_at, numer_at};
use crate::proved::ratio_slots::tally::{MOST_WEIGHT, Refusal, Tally};

/// The fraction `numer/denom` goes into its slot, and the count changes by `step`: 1, or -1 for the negative of a fraction that goes out.
///
/// # Conditions
///
/// The proof requires of the caller:
///
/// - `kept`: `IsKept slots.old tally.old.weight tally.old.count`
/// - `denom`: `denom ≢ 0`
/// - `small`: `unsigned_abs numer < 2 ^ 64`
/// - `step`: `unsigned_abs step ≤ 1`
#[inline]
pub fn put(
    slots: &mut [Slot],
    tally: &mut Tally,
    numer: i128,
    denom: u64,
    step: i64,
) -> Result<(), Refusal> {
    if tally.weight == MOST_WEIGHT {
        return Err(Refusal::TooMany);
    }
    match find(slots, denom) {
        Some(place) => {
            grow_at(slots, place, denom, numer);
            tally.weight += 1;
            tally.count += step;
            Ok(())
        }
        None => Err(Refusal::MoreRoom),
    }
}

/// Adds each fraction of the other table, or takes it out. It counts first, so that a refusal changes nothing. The other table may have
/// fractions that this one does not: 1/28 taken out of 1/36 leaves 1/36 and -1/28, and so a slot for each of both.
///
/// # Conditions
///
/// The proof requires of the caller:
///
/// - `kept`: `IsKept slots.old tally.old.weight tally.old.count`
/// - `other`: `IsKept other.now more.weight more.count`
#[inline]
pub fn merge_slots(
    slots: &mut [Slot],
    tally: &mut Tally,
    other: &[Slot],
    more: Tally,
    out: bool,
) -> Result<(), Refusal> {
    if MOST_WEIGHT - more.weight < tally.weight {
        return Err(Refusal::TooMany);
    }
    if count_free(slots) < count_new(slots, other) {
        return Err(Refusal::MoreRoom);
    }
    pour(slots, *tally, other, more, out);
    tally.weight += more.weight;
    tally.count += turned_count(more.count, out);
    Ok(())
}

/// Moves a table with its tally to other slots, such as more of them, which it empties first. If they are fewer than the denominators, it
/// returns `MoreRoom`.
///
/// # Conditions
///
/// The proof requires of the caller:
///
/// - `IsKept from.now tally.weight tally.count`
#[inline]
pub fn move_slots(from: &[Slot], tally: Tally, slots: &mut [Slot]) -> Result<(), Refusal> {
    clear(slots);
    let mut moved = Tally {
        weight: 0,
        count: 0,
    };
    merge_slots(slots, &mut moved, from, tally, false)
}

// The count, or the negative one if it goes out.
#[inline]
fn turned_count(count: i64, out: bool) -> i64 {
    if out { -count } else { count }
}

// Adds each numerator of the other table, or takes it out. The tallies are those of both tables before.
#[inline]
fn pour(slots: &mut [Slot], tally: Tally, other: &[Slot], more: Tally, out: bool) {
    for i in 0..other.len() {
        let denom = denom_at(other, i);
        let part = turned_at(other, i, out);
        if denom == 0 {
            continue;
        }
        let place = match find(slots, denom) {
            Some(place) => place,
            _ => {
                continue;
            }
        };
        grow_at(slots, place, denom, part);
    }
}

// The numerator of the slot at this index, or the negative one if it goes out.
#[inline(always)]
fn turned_at(slots: &[Slot], i: usize, out: bool) -> i128 {
    let numer = numer_at(slots, i);
    if out { -numer } else { numer }
}

/// Why a step changed nothing.
#[derive(Clone, Copy, PartialEq, Eq, Debug)]
pub enum LooseRefusal {
    /// All slots are taken by other denominators.
    MoreRoom,
    /// The slot has the denominator 0, and a numerator that is not 0.
    NotEmpty,
    /// The sum of the numerators is no number of 128 bits.
    TooGreat,
}

/// Adds the fraction `numer/denom`. If it is refused, nothing has changed.
///
/// # Conditions
///
/// The proof requires of the caller:
///
/// - `denom ≢ 0`
#[inline(always)]
pub fn put_loose(slots: &mut [Slot], numer: i128, denom: u64) -> Result<(), LooseRefusal> {
    let place = match find(slots, denom) {
        Some(place) => place,
        _ => {
            return Err(LooseRefusal::MoreRoom);
        }
    };
    if !is_clean(slots, place) {
        return Err(LooseRefusal::NotEmpty);
    }
    if numer_at(slots, place).checked_add(numer).is_none() {
        return Err(LooseRefusal::TooGreat);
    }
    grow_at(slots, place, denom, numer);
    Ok(())
}

/// Whether the slot at this index has the numerator 0 if it is empty.
///
/// # Conditions
///
/// The proof requires of the caller:
///
/// - `i < length slots.now`
#[inline(always)]
fn is_clean(slots: &[Slot], i: usize) -> bool {
    denom_at(slots, i) != 0 || numer_at(slots, i) == 0
}
