// Erased from crates/num_rational/src/splitting.rt by rust/erase: not to be edited.
//! An amount split by shares (the trait `Share`) or by weights, so that nothing is lost: at marks, which are the amount times the sums of
//! the first shares, rounded.

use crate::proved::num_rational::reduced::Reduced;
use crate::proved::ratio_core::sign::is_below_zero;
use crate::proved::ratio_decimal::rounded_product;
use crate::proved::ratio_decimal::rounding_rule::Rounding;
use crate::proved::ratio_integer::{Integer, lowest_terms};
#[cfg(feature = "std")]
use std::error::Error;
use core::fmt;

/// Why an amount is not split: the first of these that applies.
#[derive(Clone, Copy, Debug, PartialEq)]
pub enum SplitRefusal {
    /// The number of parts is not the number of shares.
    Length,
    /// A share is below 0.
    BelowZero,
    /// A sum of the first shares does not fit the type, or the amount times such a sum, rounded.
    NotHeld,
    /// The shares do not add up to 1.
    NotOne,
}

impl fmt::Display for SplitRefusal {
    #[inline]
    fn fmt(&self, f: &mut fmt::Formatter<'_>) -> fmt::Result {
        f.pad(match self {
            SplitRefusal::Length => "the number of parts is not the number of shares",
            SplitRefusal::BelowZero => "a share is below 0",
            SplitRefusal::NotHeld => {
                "a sum of the first shares, or the amount times this sum, rounded, does not fit the type"
            }
            SplitRefusal::NotOne => "the shares do not add up to 1",
        })
    }
}

#[cfg(feature = "std")]
impl Error for SplitRefusal {}

/// Why an amount is not split by weights: the first of these that applies.
#[derive(Clone, Copy, Debug, PartialEq)]
pub enum WeightRefusal {
    /// The number of parts is not the number of weights.
    Length,
    /// A weight is below 0.
    BelowZero,
    /// The sum of the weights does not fit the type.
    NotHeld,
    /// The weights add up to 0. Those of an empty list do, too.
    AllZero,
}

impl fmt::Display for WeightRefusal {
    #[inline]
    fn fmt(&self, f: &mut fmt::Formatter<'_>) -> fmt::Result {
        f.pad(match self {
            WeightRefusal::Length => "the number of parts is not the number of weights",
            WeightRefusal::BelowZero => "a weight is below 0",
            WeightRefusal::NotHeld => "the sum of the weights does not fit the type",
            WeightRefusal::AllZero => "no weight is above 0",
        })
    }
}

#[cfg(feature = "std")]
impl Error for WeightRefusal {}

/// A share of an amount: a fraction in any terms.
pub trait Share<T: Copy + Integer> {
    /// Its numerator.
    fn numer(&self) -> T;

    /// Its lowest terms, if its denominator is positive. Otherwise the result may be any fraction.
    fn lowest(&self) -> Reduced<T>;
}

impl<T: Copy + Integer> Share<T> for Reduced<T> {
    #[inline(always)]
    fn numer(&self) -> T {
        *self.numer()
    }

    #[inline(always)]
    fn lowest(&self) -> Reduced<T> {
        *self
    }
}

/// Splits the amount by the shares into the parts. The parts add up to the amount exactly, and each is less than
/// 1 away from the amount times its share. For example, 100 split by 1/3, 1/3 and 1/3 is 33, 34 and 33. At a
/// refusal no part has changed. The sums of the first shares, times the amount, are rounded with a half away from
/// 0. A part is the difference of two neighbours. No product has to fit: 10,000,000,000 is split by shares over
/// 9,999,999,999, too.
#[inline]
pub fn split<T: Copy + Integer>(
    amount: T,
    shares: &[Reduced<T>],
    parts: &mut [T],
) -> Result<(), SplitRefusal> {
    split_shares(amount, shares, parts)
}

/// Splits the amount as `split` does, by shares that need not be in lowest terms. Their denominators are above 0.
///
/// # Conditions
///
/// The proof requires of the caller:
///
/// - `SharesOverPositive S.two_numbers shares.now`
#[inline]
pub fn split_shares<T: Copy + Integer, S: Share<T>>(
    amount: T,
    shares: &[S],
    parts: &mut [T],
) -> Result<(), SplitRefusal> {
    if parts.len() != shares.len() {
        return Err(SplitRefusal::Length);
    }
    if !none_is_below_zero(shares) {
        return Err(SplitRefusal::BelowZero);
    }
    let (count, sum, common) = total_over(amount, shares);
    if count < shares.len() {
        check_marks(amount, shares, count, lowest_over(sum, common))?;
        write_parts(amount, shares, parts);
        return Ok(());
    }
    if sum == common {
        write_parts_over::<T, S, Fractions>(amount, shares, common, parts);
        Ok(())
    } else {
        Err(SplitRefusal::NotOne)
    }
}

#[inline]
fn none_is_below_zero<T: Copy + Integer, S: Share<T>>(shares: &[S]) -> bool {
    shares.iter().all(|share| !is_below_zero(share.numer()))
}

// The sum with one more share, and the amount times it, rounded.
#[inline]
fn next_mark<T: Copy + Integer>(
    amount: T,
    sum: &Reduced<T>,
    share: &Reduced<T>,
) -> Option<(Reduced<T>, T)> {
    let sum = sum.checked_add(share)?;
    let mark = sum.checked_mul_round(amount, Rounding::HalfAway)?;
    Some((sum, mark))
}

// The lowest terms of a fraction over a positive denominator.
#[inline]
fn lowest_over<T: Copy + Integer>(n: T, d: T) -> Reduced<T> {
    match Reduced::checked_new(n, d) {
        Some(lowest) => lowest,
        None => unreachable!(),
    }
}

// Whether each sum of the first shares and its mark fit, and the last sum is 1. It begins behind the first `count` shares, for
// which this is known, with their sum.
#[inline]
fn check_marks<T: Copy + Integer, S: Share<T>>(
    amount: T,
    shares: &[S],
    count: usize,
    begun: Reduced<T>,
) -> Result<(), SplitRefusal> {
    let mut sum = begun;
    for i in count..shares.len() {
        match next_mark(amount, &sum, &shares[i].lowest()) {
            Some((next, _)) => sum = next,
            None => return Err(SplitRefusal::NotHeld),
        }
    }
    if *sum.numer() == *sum.denom() {
        Ok(())
    } else {
        Err(SplitRefusal::NotOne)
    }
}

// Writes the parts. It requires that no refusal applies.
#[inline]
fn write_parts<T: Copy + Integer, S: Share<T>>(amount: T, shares: &[S], parts: &mut [T]) {
    let mut sum = Reduced::zero();
    let mut mark = T::ZERO;
    for (i, share) in shares.iter().enumerate() {
        let (next, next_mark) = next_mark(amount, &sum, &share.lowest()).unwrap();
        parts[i] = next_mark.minus(mark);
        sum = next;
        mark = next_mark;
    }
}

// Shares over one denominator, a common multiple of theirs, as far as it fits the type.
//
// There the sums of the first shares are whole numbers: 3/6, 5/6 and 6/6 for 1/2, 1/3 and 1/6. So a sum takes no greatest common
// divisor once the denominator is known. As long as the shares add up to at most 1, no sum and no mark is too great for the type:
// each mark lies between 0 and the amount.

// The sum of the first shares over one denominator: how many they are, the numerator and the denominator. It stops before a share of 1
// or more, and where the sum would be above 1, a number would not fit the type, or the amount times the denominator not 128 bits.
#[inline]
fn total_over<T: Copy + Integer, S: Share<T>>(amount: T, shares: &[S]) -> (usize, T, T) {
    let mut sum = T::ZERO;
    let mut common = T::ONE;
    for (i, share) in shares.iter().enumerate() {
        let next = match joined(amount, sum, common, share) {
            Some(next) => next,
            _ => {
                return (i, sum, common);
            }
        };
        sum = next.0;
        common = next.1;
    }
    (shares.len(), sum, common)
}

// `sum/common` and one more share, and their common denominator. It is `None` where `total_over` stops.
#[inline]
fn joined<T: Copy + Integer, S: Share<T>>(amount: T, sum: T, common: T, share: &S) -> Option<(T, T)> {
    if share.numer().is_zero() {
        return Some((sum, common));
    }
    let lowest = share.lowest();
    // Few shares are left then, or none.
    if *lowest.denom() <= *lowest.numer() {
        return None;
    }
    let (next, over) = added(sum, common, &lowest)?;
    if over < next {
        return None;
    }
    // Sums in lowest terms have shorter products.
    let _ = amount.to_i128()?.try_times(over.to_i128()?)?;
    Some((next, over))
}

// `sum/common` and one more share, and their common denominator. It is the same if the share is a whole number over it.
#[inline]
fn added<T: Copy + Integer>(sum: T, common: T, share: &Reduced<T>) -> Option<(T, T)> {
    let numer = *share.numer();
    let denom = *share.denom();
    let (times, rest) = common.div_rem(denom);
    if rest.is_zero() {
        return Some((sum.try_plus(numer.try_times(times)?)?, common));
    }
    // If common/denom is u/v in lowest terms, common times v is denom times u.
    let (for_share, for_sum) = lowest_terms(common, denom);
    let left = sum.try_times(for_sum)?;
    let right = numer.try_times(for_share)?;
    Some((left.try_plus(right)?, common.try_times(for_sum)?))
}

// A way to read shares as whole numbers over a common denominator.
trait Numerators<T: Copy + Integer, S> {
    // The numerator of a share over the denominator.
    fn numer_over(share: &S, common: T) -> T;
}

// Shares that are fractions.
struct Fractions;

impl<T: Copy + Integer, S: Share<T>> Numerators<T, S> for Fractions {
    #[inline]
    fn numer_over(share: &S, common: T) -> T {
        if share.numer().is_zero() {
            return T::ZERO;
        }
        let lowest = share.lowest();
        let (times, _) = common.div_rem(*lowest.denom());
        lowest.numer().times(times)
    }
}

// Shares that are weights. The denominator is the sum of all.
struct Weights;

impl<T: Copy + Integer> Numerators<T, T> for Weights {
    #[inline]
    fn numer_over(weight: &T, _: T) -> T {
        *weight
    }
}

// Writes the parts of shares over a common denominator. It requires that they add up to 1, and that no share is below 0.
#[inline]
fn write_parts_over<T: Copy + Integer, S, N: Numerators<T, S>>(
    amount: T,
    shares: &[S],
    common: T,
    parts: &mut [T],
) {
    let mut sum = T::ZERO;
    let mut mark = T::ZERO;
    for (i, share) in shares.iter().enumerate() {
        let numer = N::numer_over(share, common);
        if numer.is_zero() {
            parts[i] = T::ZERO;
            continue;
        }
        sum = sum.plus(numer);
        let next = mark_over(amount, sum, common);
        parts[i] = next.minus(mark);
        mark = next;
    }
}

// The amount times `sum/common`, which lies from 0 to 1, rounded.
#[inline]
fn mark_over<T: Copy + Integer>(amount: T, sum: T, common: T) -> T {
    if sum == common {
        return amount;
    }
    rounded_product(amount, T::ONE, sum, common, Rounding::HalfAway).unwrap()
}

/// Splits the amount by the weights into the parts. The share of a weight is the weight over the sum of all. The parts
/// add up to the amount exactly, and each is less than 1 away from the amount times its share. For example, 100 split
/// by the weights 1, 1 and 1 is 33, 34 and 33. At a refusal no part has changed. The sums of the first shares, times
/// the amount, are rounded with a half away from 0. A part is the difference of two neighbours. No product has to fit.
#[inline]
pub fn split_by_weights<T: Copy + Integer>(
    amount: T,
    weights: &[T],
    parts: &mut [T],
) -> Result<(), WeightRefusal> {
    if parts.len() != weights.len() {
        return Err(WeightRefusal::Length);
    }
    if !no_weight_is_below_zero(weights) {
        return Err(WeightRefusal::BelowZero);
    }
    let total = match checked_total(weights) {
        Some(total) => total,
        _ => {
            return Err(WeightRefusal::NotHeld);
        }
    };
    if total.is_zero() {
        return Err(WeightRefusal::AllZero);
    }
    write_parts_over::<T, T, Weights>(amount, weights, total, parts);
    Ok(())
}

#[inline]
fn no_weight_is_below_zero<T: Copy + Integer>(weights: &[T]) -> bool {
    weights.iter().all(|weight| !is_below_zero(*weight))
}

// The sum of the weights, or `None` if it does not fit the type.
#[inline]
fn checked_total<T: Copy + Integer>(weights: &[T]) -> Option<T> {
    let mut sum = T::ZERO;
    for weight in weights {
        sum = sum.try_plus(*weight)?;
    }
    Some(sum)
}
