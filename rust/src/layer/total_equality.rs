//! Whether two totals have the same sum, or a total and a fraction or a number on its right, by `==`.
use super::integer::Integer;
use super::reduced::Reduced;
use super::total::Total;

/// Totals are equal exactly if their sums are, whatever fractions made them, and however many: 1/2 + 1/2 is 1. The sums need not fit the
/// type. Beside `compare`, this also decides where a common denominator is not below 2^(2^20), and may then take minutes.
///
/// ```
/// use num_rational::{ratio, Total};
///
/// let halves: Total<i64> = [ratio!(1/2), ratio!(1/2)].iter().sum();
/// let one: Total<i64> = [ratio!(1)].iter().sum();
/// assert_eq!(halves, one);
/// assert_ne!(halves.count(), one.count());
/// ```
impl<T: Integer> PartialEq for Total<T> {
    /// # Panics
    ///
    /// If `big_sum` of one is `TooLong`. `compare` returns that as an error. And for want of memory.
    #[track_caller]
    fn eq(&self, other: &Total<T>) -> bool {
        if let Ok(order) = self.compare(other) {
            return order.is_eq();
        }
        match (self.big_sum(), other.big_sum()) {
            (Ok(sum), Ok(other)) => sum == other,
            (Err(error), _) | (_, Err(error)) => panic!("{error}"),
        }
    }
}

impl<T: Integer> Eq for Total<T> {}

impl<T: Integer> PartialEq<Reduced<T>> for Total<T> {
    /// Whether the sum is the fraction.
    ///
    /// # Panics
    ///
    /// As for two totals.
    #[track_caller]
    fn eq(&self, other: &Reduced<T>) -> bool {
        let other = Total::from(*other);
        *self == other
    }
}

impl<T: Integer> PartialEq<T> for Total<T> {
    /// Whether the sum is the number.
    ///
    /// # Panics
    ///
    /// As for two totals.
    #[track_caller]
    fn eq(&self, other: &T) -> bool {
        *self == Reduced::from_integer(*other)
    }
}
