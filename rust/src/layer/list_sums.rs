//! Sums of lists, where a partial sum need not fit the type.
//!
//! The sum so far is over one common denominator, both in 64 bits. It is put into lowest terms once, behind the last item. Where 64 bits
//! are too few, the next step is one of `checked_add`. Over 128 bits, each step is. Where such a step does not fit the type, a `Total`
//! takes the sum so far and the rest.
use super::integer::Integer;
#[cfg(feature = "alloc")]
use super::numbers::Numbers;
use super::numbers::{is_short, of_short, short};
use super::reduced::Reduced;
#[cfg(feature = "alloc")]
use super::total::Total;
use crate::proved::ratio_slots::{add_short, short_pair};

/// What `checked_sum` of a `Reduced` returns.
#[inline]
pub(super) fn checked_sum<T: Integer>(items: impl Iterator<Item = Reduced<T>>) -> Option<Reduced<T>> {
    if is_short::<T>() {
        running_sum(items)
    } else {
        sum_in_steps(items)
    }
}

/// The sum over a type of at most 64 bits.
#[inline]
fn running_sum<T: Integer>(mut items: impl Iterator<Item = Reduced<T>>) -> Option<Reduced<T>> {
    let mut sum = Running::ZERO;
    while let Some(item) = items.next() {
        sum = match sum.plus(item).or_else(|| sum.plus_in_lowest_terms(item)) {
            Some(next) => next,
            None => return sum_of_rest(sum, item, items),
        };
    }
    sum.lowest()
}

/// The sum over `i128` or `u128`. Each step is one of `checked_add`.
#[inline]
fn sum_in_steps<T: Integer>(mut items: impl Iterator<Item = Reduced<T>>) -> Option<Reduced<T>> {
    let mut sum = Reduced::ZERO;
    while let Some(item) = items.next() {
        sum = match sum.checked_add(item) {
            Some(next) => next,
            None => return sum_of_rest(Running::ZERO, sum, core::iter::once(item).chain(items)),
        };
    }
    Some(sum)
}

/// The sum so far and the other items, of which the first one is at hand.
#[cfg(feature = "alloc")]
#[cold]
fn sum_of_rest<T: Integer>(sum: Running, item: Reduced<T>, items: impl Iterator<Item = Reduced<T>>) -> Option<Reduced<T>> {
    let mut total = Total::<T>::new();
    total.add_numbers(Numbers::Short(sum.numer, sum.common));
    total.add(item);
    total.extend(items);
    total.sum().ok()?
}

/// A step does not fit, and there is no memory for a total.
#[cfg(not(feature = "alloc"))]
#[cold]
fn sum_of_rest<T: Integer>(_: Running, _: Reduced<T>, _: impl Iterator<Item = Reduced<T>>) -> Option<Reduced<T>> {
    None
}

/// The greatest numerator that a total takes.
const MOST: i128 = u64::MAX as i128;

/// The sum so far is `numer/common`, not reduced. The numerator is from -`MOST` to `MOST`.
#[derive(Clone, Copy)]
struct Running {
    numer: i128,
    common: u64,
}

impl Running {
    const ZERO: Running = Running { numer: 0, common: 1 };

    /// The sum and one more fraction, over the common denominator of both. `None` if 64 bits are too few for it.
    #[inline]
    fn plus<T: Integer>(self, item: Reduced<T>) -> Option<Running> {
        let (numer, denom) = short(item);
        let (numer, common) = add_short(self.numer, self.common.into(), numer, denom)?;
        Running::of(numer, common.try_into().ok()?)
    }

    /// The same in lowest terms. `None` if a sum does not fit the type.
    #[cold]
    fn plus_in_lowest_terms<T: Integer>(self, item: Reduced<T>) -> Option<Running> {
        let (numer, common) = short(self.lowest::<T>()?.checked_add(item)?);
        Running::of(numer, common)
    }

    #[inline]
    fn of(numer: i128, common: u64) -> Option<Running> {
        if (-MOST..=MOST).contains(&numer) {
            Some(Running { numer, common })
        } else {
            None
        }
    }

    /// The sum in lowest terms. `None` if they do not fit the type.
    #[inline]
    fn lowest<T: Integer>(self) -> Option<Reduced<T>> {
        of_short(short_pair(self.numer, self.common.into())?)
    }
}

#[cfg(test)]
mod tests {
    use super::Running;

    /// A total takes numerators below 2^64 in magnitude.
    #[test]
    fn the_greatest_numerators() {
        let most = i128::from(u64::MAX);
        let taken = [-most - 1, -most, most, most + 1].map(|numer| Running::of(numer, 1).is_some());
        assert_eq!(taken, [false, true, true, false]);
    }
}
