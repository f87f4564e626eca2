//! Methods of std that are newer than the crate's oldest Rust, as functions for the erased sources.

/// The difference, or `None` if it does not fit. std has it since Rust 1.66, as `left.checked_sub_unsigned(right)`.
#[inline]
pub(crate) fn checked_sub_unsigned(left: i128, right: u128) -> Option<i128> {
    // From 2^127 on, `right` as an `i128` is 2^128 less. Then the difference fits exactly if this subtraction overflows.
    let (difference, overflowed) = left.overflowing_sub(right as i128);
    if overflowed == (right > i128::MAX as u128) {
        Some(difference)
    } else {
        None
    }
}

/// The sum, or `None` if it does not fit. std has it since Rust 1.66, as `left.checked_add_unsigned(right)`.
#[inline]
pub(crate) fn checked_add_unsigned(left: i128, right: u128) -> Option<i128> {
    // As above: then the sum fits exactly if this addition overflows.
    let (sum, overflowed) = left.overflowing_add(right as i128);
    if overflowed == (right > i128::MAX as u128) {
        Some(sum)
    } else {
        None
    }
}

#[cfg(test)]
mod tests {
    use super::{checked_add_unsigned, checked_sub_unsigned};

    const LEAST: i128 = i128::MIN;
    const MOST: i128 = i128::MAX;
    const SIZE: u128 = 1 << 127;

    #[test]
    fn sums_at_the_ends() {
        let rows = [
            (0, 0, Some(0)),
            (0, 7, Some(7)),
            (-9, 7, Some(-2)),
            (0, SIZE - 1, Some(MOST)),
            (0, SIZE, None),
            (0, u128::MAX, None),
            (1, SIZE - 1, None),
            (-1, SIZE, Some(MOST)),
            (LEAST, 0, Some(LEAST)),
            (LEAST, SIZE, Some(0)),
            (LEAST, u128::MAX, Some(MOST)),
            (LEAST + 1, u128::MAX, None),
            (MOST, 0, Some(MOST)),
            (MOST, 1, None),
            (MOST, SIZE, None),
        ];
        for (left, right, sum) in rows {
            assert_eq!(checked_add_unsigned(left, right), sum, "{left} + {right}");
        }
    }

    #[test]
    fn differences_at_the_ends() {
        let rows = [
            (0, 0, Some(0)),
            (0, 7, Some(-7)),
            (7, 9, Some(-2)),
            (0, SIZE - 1, Some(-MOST)),
            (0, SIZE, Some(LEAST)),
            (0, SIZE + 1, None),
            (0, u128::MAX, None),
            (1, SIZE + 1, Some(LEAST)),
            (-1, SIZE, None),
            (-1, SIZE - 1, Some(LEAST)),
            (LEAST, 0, Some(LEAST)),
            (LEAST, 1, None),
            (LEAST, SIZE, None),
            (LEAST, u128::MAX, None),
            (MOST, SIZE, Some(-1)),
            (MOST, u128::MAX, Some(LEAST)),
            (MOST - 1, u128::MAX, None),
        ];
        for (left, right, difference) in rows {
            assert_eq!(checked_sub_unsigned(left, right), difference, "{left} - {right}");
        }
    }
}
