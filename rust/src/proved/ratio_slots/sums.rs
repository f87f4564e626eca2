// Erased from crates/ratio_slots/src/sums.rt by rust/erase: not to be edited.
//! The struct `Sum`: the three numbers of a sum, found in its room, and exchanged where a sum goes out.

/// The numbers of a sum in the order of its room: `(positive - negative)/common`.
#[derive(Clone, Copy)]
pub(crate) struct Sum<'a> {
    pub positive: &'a [u64],
    pub common: &'a [u64],
    pub negative: &'a [u64],
}

/// The numbers in a room with so many digits for the common denominator.
///
/// # Conditions
///
/// The proof requires of the caller:
///
/// - `room_digits digits ≤ length room.now`
#[inline(always)]
pub(crate) fn sum_in(digits: usize, room: &[u64]) -> Sum<'_> {
    let (positive, others) = room.split_at(digits + 3);
    let (common, others) = others.split_at(digits);
    let negative = &others[..digits + 3];
    Sum {
        positive,
        common,
        negative,
    }
}

/// The numbers as they go in. If they go out, their two sums are exchanged.
///
/// # Conditions
///
/// The proof requires of the caller:
///
/// - `IsLong sum`
#[inline(always)]
pub(crate) fn turned(sum: Sum<'_>, out: bool) -> Sum<'_> {
    if out {
        Sum {
            positive: sum.negative,
            common: sum.common,
            negative: sum.positive,
        }
    } else {
        sum
    }
}
