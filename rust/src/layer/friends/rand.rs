//! Random fractions, by the generators of the crate rand.
use super::super::integer::Integer;
use super::super::reduced::Reduced;
use crate::Rounding;
use rand::distributions::uniform::{SampleUniform, UniformSampler};
use rand::distributions::Distribution;
use rand::Rng;

/// The multiples of `1/parts` from `low` to `high`, both ends included: each is drawn with the same probability. So the denominator of each
/// divides `parts`: between 0 and 1 with 6 parts there are 0, 1/6, 1/3, 1/2, 2/3, 5/6 and 1.
///
/// This is exact, and not only nearly so, if the generator draws each word with the same probability: the multiples are `k/parts` for a range of
/// whole numbers `k`, one for each multiple, and rand draws each whole number of a range equally often. Of all fractions with a denominator up
/// to a bound, a narrow range may have one among 10^18 pairs of numbers, so these are not drawn.
///
/// ```
/// use num_rational::{FractionsBetween, Reduced64};
/// use rand::distributions::Distribution;
///
/// let cents = FractionsBetween::new(Reduced64::new(5, 2), Reduced64::from(10), 100).unwrap(); // 2.50, 2.51 .. 10
/// let price = cents.sample(&mut rand::thread_rng());
/// assert!(price >= Reduced64::new(5, 2) && price <= 10 && 100 % price.denom() == 0);
/// ```
#[derive(Clone, Copy, Debug, PartialEq, Eq)]
pub struct FractionsBetween<T> {
    first: T,
    last: T,
    parts: T,
}

impl<T: Integer> FractionsBetween<T> {
    /// `None` if there is no such fraction, if `parts` is below 1, or if the first or the last one times `parts` does not fit the type.
    ///
    /// ```
    /// use num_rational::{FractionsBetween, Reduced64};
    ///
    /// let [third, half] = [Reduced64::new(1, 3), Reduced64::new(1, 2)];
    /// assert!(FractionsBetween::new(third, half, 5).is_some()); // 2/5
    /// assert!(FractionsBetween::new(third, half, 1).is_none());
    /// assert!(FractionsBetween::new(half, third, 5).is_none());
    /// ```
    pub fn new(low: Reduced<T>, high: Reduced<T>, parts: T) -> Option<FractionsBetween<T>> {
        let (first, last) = (low.checked_mul_round(parts, Rounding::Ceil)?, high.checked_mul_round(parts, Rounding::Floor)?);
        Some(FractionsBetween { first, last, parts }).filter(|_| parts > T::zero() && first <= last)
    }
}

impl<T: Integer + SampleUniform> Distribution<Reduced<T>> for FractionsBetween<T> {
    fn sample<R: Rng + ?Sized>(&self, generator: &mut R) -> Reduced<T> {
        Reduced::new(T::Sampler::sample_single_inclusive(self.first, self.last, generator), self.parts)
    }
}
