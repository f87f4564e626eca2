//! Signs: the symbol `-`, and num-traits' `Signed`.
use super::integer::{Element, Integer, Signs};
use super::ratio::Ratio;
use super::same::on_machine;
use super::schoolbook;
use core::ops::Neg;
use num_traits::Signed;

impl<T: Clone + num_integer::Integer + Neg<Output = T>> Neg for Ratio<T> {
    type Output = Ratio<T>;

    /// # Panics
    ///
    /// If the numerator is the least number, or if the denominator is 0.
    #[inline]
    #[track_caller]
    fn neg(self) -> Ratio<T> {
        on_machine!(T, same => same.back(neg_of_machine(same.fraction(&self))));
        let (numer, denom) = self.into_raw();
        Ratio::new_raw(-numer, denom)
    }
}

impl<T: Clone + num_integer::Integer + Neg<Output = T>> Neg for &Ratio<T> {
    type Output = Ratio<T>;

    /// # Panics
    ///
    /// If the numerator is the least number, or if the denominator is 0.
    #[inline]
    #[track_caller]
    fn neg(self) -> Ratio<T> {
        -self.clone()
    }
}

impl<T: Clone + num_integer::Integer + Signed> Signed for Ratio<T> {
    /// # Panics
    ///
    /// If the fraction is below 0 and its numerator is the least number, or if the denominator is 0.
    #[inline]
    #[track_caller]
    fn abs(&self) -> Ratio<T> {
        on_machine!(T, same => same.back(abs_of_machine(same.fraction(self))));
        schoolbook::abs(self)
    }

    /// # Panics
    ///
    /// If the difference is above 0 and does not fit the type, or if a denominator is 0.
    #[inline]
    #[track_caller]
    fn abs_sub(&self, other: &Ratio<T>) -> Ratio<T> {
        if *self <= *other {
            Ratio::from_integer(T::zero())
        } else {
            self - other
        }
    }

    /// # Panics
    ///
    /// If the denominator is 0.
    #[inline]
    #[track_caller]
    fn signum(&self) -> Ratio<T> {
        on_machine!(T, same => same.back(signum_of_machine(same.fraction(self))));
        schoolbook::signum(self)
    }

    /// # Panics
    ///
    /// If the denominator is 0.
    #[inline]
    #[track_caller]
    fn is_positive(&self) -> bool {
        on_machine!(T, same => is_positive_of_machine(same.fraction(self)));
        schoolbook::is_positive(self)
    }

    /// # Panics
    ///
    /// If the denominator is 0.
    #[inline]
    #[track_caller]
    fn is_negative(&self) -> bool {
        on_machine!(T, same => is_negative_of_machine(same.fraction(self)));
        schoolbook::is_negative(self)
    }
}

// The proved calls, for the machine types.

#[inline]
#[track_caller]
pub(super) fn neg_of_machine<T: Integer>(x: &Ratio<T>) -> Ratio<T> {
    match <T as Element>::Signs::checked_neg(x.proved()) {
        Some(negative) => Ratio::from_proved(negative),
        None => refuse(),
    }
}

#[inline]
#[track_caller]
pub(super) fn abs_of_machine<T: Integer>(x: &Ratio<T>) -> Ratio<T> {
    match <T as Element>::Signs::checked_abs(x.proved()) {
        Some(value) => Ratio::from_proved(value),
        None => refuse(),
    }
}

#[inline]
#[track_caller]
pub(super) fn signum_of_machine<T: Integer>(x: &Ratio<T>) -> Ratio<T> {
    Ratio::from_proved(<T as Element>::Signs::signum(x.proved()))
}

#[inline]
#[track_caller]
pub(super) fn is_positive_of_machine<T: Integer>(x: &Ratio<T>) -> bool {
    <T as Element>::Signs::is_positive(x.proved())
}

#[inline]
#[track_caller]
pub(super) fn is_negative_of_machine<T: Integer>(x: &Ratio<T>) -> bool {
    <T as Element>::Signs::is_negative(x.proved())
}

#[cold]
#[inline(never)]
#[track_caller]
fn refuse() -> ! {
    panic!("attempt to negate with overflow")
}
