//! What stands beside a `BigFraction` in an operator: a whole number, a `Ratio`, a `Reduced` or a `BigFraction`, or a reference to one of these.
use super::big_fraction::BigFraction;
use super::integer::{Element, Integer};
use super::numbers::magnitude;
use super::ratio::Ratio;
use super::reduced::Reduced;
use crate::memory::AllocError;

/// What may stand beside a [`BigFraction`] in an operator, and what [`BigFraction::new`] takes: a whole number of the twelve machine types, a
/// `Ratio` or a `Reduced` of them, a `BigFraction`, or a reference to one of these. No other type can have this trait.
///
/// ```
/// use num_rational::{BigFraction, BigOperand, Ratio};
///
/// fn with_tax<N: BigOperand>(price: &BigFraction, rate: N) -> BigFraction {
///     price * rate + price
/// }
///
/// let price = BigFraction::from(100);
/// assert_eq!(with_tax(&price, Ratio::new(1, 5)), 120);
/// assert_eq!(with_tax(&price, &BigFraction::new(1, 5)), with_tax(&price, 2) - 180);
/// ```
///
/// ```compile_fail
/// let _ = num_rational::BigFraction::from(1) + 0.5; // a float is none, since it may have no value: `BigFraction::try_from(0.5)`
/// ```
pub trait BigOperand: Hidden {}

impl<O: Hidden> BigOperand for O {}

/// The calls of an operand, under names that no other trait has: `BigOperand` and `Integer` bring them into generic code of this crate's users.
pub trait Hidden {
    /// What `call` returns for the operand as a `BigFraction`. `None` if it is a `Ratio` with the denominator 0. An error for want of memory.
    fn bakhsney_to<R>(&self, call: impl FnOnce(&BigFraction) -> Result<R, AllocError>) -> Result<Option<R>, AllocError>;

    /// The quotient of two operands. `None` if there is none, and an error for want of memory.
    #[inline]
    fn bakhsney_quotient(numer: &Self, denom: &Self) -> Result<Option<BigFraction>, AllocError> {
        let quotient = numer.bakhsney_to(|numer| denom.bakhsney_to(|denom| numer.try_div(denom)));
        Ok(quotient?.flatten().flatten())
    }
}

impl<O: Hidden> Hidden for &O {
    #[inline]
    fn bakhsney_to<R>(&self, call: impl FnOnce(&BigFraction) -> Result<R, AllocError>) -> Result<Option<R>, AllocError> {
        O::bakhsney_to(self, call)
    }

    #[inline]
    fn bakhsney_quotient(numer: &&O, denom: &&O) -> Result<Option<BigFraction>, AllocError> {
        O::bakhsney_quotient(numer, denom)
    }
}

impl Hidden for BigFraction {
    #[inline]
    fn bakhsney_to<R>(&self, call: impl FnOnce(&BigFraction) -> Result<R, AllocError>) -> Result<Option<R>, AllocError> {
        Ok(Some(call(self)?))
    }
}

impl<T: Integer> Hidden for Reduced<T> {
    #[inline]
    fn bakhsney_to<R>(&self, call: impl FnOnce(&BigFraction) -> Result<R, AllocError>) -> Result<Option<R>, AllocError> {
        Ok(Some(call(&BigFraction::try_from_reduced(*self)?)?))
    }
}

impl<T: Integer> Hidden for Ratio<T> {
    #[inline]
    fn bakhsney_to<R>(&self, call: impl FnOnce(&BigFraction) -> Result<R, AllocError>) -> Result<Option<R>, AllocError> {
        quotient(*self.numer(), *self.denom())?.map(|fraction| call(&fraction)).transpose()
    }
}

// One for each type: one for all of them would be in the way of the one for references.
macro_rules! numbers {
    ($($type:ident)*) => {$(
        impl Hidden for $type {
            #[inline]
            fn bakhsney_to<R>(&self, call: impl FnOnce(&BigFraction) -> Result<R, AllocError>) -> Result<Option<R>, AllocError> {
                Reduced::from_integer(*self).bakhsney_to(call)
            }

            #[inline]
            fn bakhsney_quotient(numer: &$type, denom: &$type) -> Result<Option<BigFraction>, AllocError> {
                quotient(*numer, *denom)
            }
        }
    )*};
}

numbers! { i8 i16 i32 i64 i128 isize u8 u16 u32 u64 u128 usize }

#[inline]
fn quotient<T: Integer>(numer: T, denom: T) -> Result<Option<BigFraction>, AllocError> {
    if let Some(fraction) = Reduced::checked_new(numer, denom) {
        return BigFraction::try_from_reduced(fraction).map(Some);
    }
    // The lowest terms do not fit the type, as those of 1/-128 over `i8`.
    let is_negative = (numer < T::NUMBER_0) != (denom < T::NUMBER_0);
    BigFraction::try_from_digits(is_negative, &digits_of(magnitude(numer)), &digits_of(magnitude(denom)))
}

/// The two digits of a number, the lowest first.
fn digits_of(number: u128) -> [u64; 2] {
    [number as u64, (number >> 64) as u64]
}
