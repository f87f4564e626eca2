// Erased from crates/num_rational/src/ops.rt by rust/erase: not to be edited.
// Written by templates/write from templates/operator.rt.txt: change that file, and write this one anew.
//! The five operators of `Ratio`, each as a checked call, as a call that requires a result, and as its two symbols, such as `+` and `+=`.

use crate::proved::num_rational::operand::Operand;
use crate::proved::num_rational::ratio::Ratio;
use crate::proved::ratio_core::{products, remainder, sums};
use crate::proved::ratio_integer::Integer;
use core::ops::{Add, AddAssign, Div, DivAssign, Mul, MulAssign, Rem, RemAssign, Sub, SubAssign};

impl<T: Copy + Integer> Ratio<T> {
    /// The sum in lowest terms. For a type whose `EXACT_SUMS` is true, as for `i32` and `i64`, the
    /// call returns `None` exactly if these do not fit the type. For any other type, it returns
    /// `None` exactly if the least common denominator, a numerator over it or the sum of these
    /// numerators does not fit: over `i8`, for 1/30 + 1/70. The fields are taken as they are, not
    /// reduced.
    ///
    /// # Conditions
    ///
    /// The proof requires of the caller:
    ///
    /// - `left_positive`: `pos 0 <ℤ denominator self.now`
    /// - `right_positive`: `pos 0 <ℤ denominator other.now`
    #[inline]
    pub fn checked_add(&self, other: &Ratio<T>) -> Option<Ratio<T>> {
        match sums::checked_add(self.numer, self.denom, other.numer, other.denom) {
            Some((numer, denom)) => Some(Ratio::new_raw(numer, denom)),
            None => None,
        }
    }

    /// The sum in lowest terms, also by the symbol `+`. It requires that `checked_add` returns
    /// `Some`.
    ///
    /// # Conditions
    ///
    /// The proof requires of the caller:
    ///
    /// - `left_positive`: `pos 0 <ℤ denominator self`
    /// - `right_positive`: `pos 0 <ℤ denominator other`
    /// - `answered`: `SumCondition T.EXACT_SUMS T.lo T.hi (numerator self) (denominator self) (numerator other) (denominator other)`
    #[inline]
    pub fn add(self, other: Ratio<T>) -> Ratio<T> {
        let (numer, denom) = sums::add(self.numer, self.denom, other.numer, other.denom);
        Ratio::new_raw(numer, denom)
    }
}

impl<T: Copy + Integer, O: Operand<T>> Add<O> for Ratio<T> {
    type Output = Ratio<T>;

    #[inline]
    fn add(self, other: O) -> Ratio<T> {
        self.add(other.ratio())
    }
}

impl<T: Copy + Integer, O: Operand<T>> Add<O> for &Ratio<T> {
    type Output = Ratio<T>;

    #[inline]
    fn add(self, other: O) -> Ratio<T> {
        (*self).add(other.ratio())
    }
}

impl<T: Copy + Integer, O: Operand<T>> AddAssign<O> for Ratio<T> {
    #[inline]
    fn add_assign(&mut self, other: O) {
        *self = self.add(other.ratio());
    }
}

impl<T: Copy + Integer> Ratio<T> {
    /// The difference in lowest terms. For a type whose `EXACT_SUMS` is true, as for `i32` and `i64`,
    /// the call returns `None` exactly if these do not fit the type. For any other type, it returns
    /// `None` exactly if the least common denominator, a numerator over it or the difference of these
    /// numerators does not fit: over `i8`, for 1/30 - 1/70. The fields are taken as they are, not
    /// reduced.
    ///
    /// # Conditions
    ///
    /// The proof requires of the caller:
    ///
    /// - `left_positive`: `pos 0 <ℤ denominator self.now`
    /// - `right_positive`: `pos 0 <ℤ denominator other.now`
    #[inline]
    pub fn checked_sub(&self, other: &Ratio<T>) -> Option<Ratio<T>> {
        match sums::checked_sub(self.numer, self.denom, other.numer, other.denom) {
            Some((numer, denom)) => Some(Ratio::new_raw(numer, denom)),
            None => None,
        }
    }

    /// The difference in lowest terms, also by the symbol `-`. It requires that `checked_sub` returns
    /// `Some`.
    ///
    /// # Conditions
    ///
    /// The proof requires of the caller:
    ///
    /// - `left_positive`: `pos 0 <ℤ denominator self`
    /// - `right_positive`: `pos 0 <ℤ denominator other`
    /// - `answered`: `DifferenceCondition T.EXACT_SUMS T.lo T.hi (numerator self) (denominator self) (numerator other) (denominator other)`
    #[inline]
    pub fn sub(self, other: Ratio<T>) -> Ratio<T> {
        let (numer, denom) = sums::sub(self.numer, self.denom, other.numer, other.denom);
        Ratio::new_raw(numer, denom)
    }
}

impl<T: Copy + Integer, O: Operand<T>> Sub<O> for Ratio<T> {
    type Output = Ratio<T>;

    #[inline]
    fn sub(self, other: O) -> Ratio<T> {
        self.sub(other.ratio())
    }
}

impl<T: Copy + Integer, O: Operand<T>> Sub<O> for &Ratio<T> {
    type Output = Ratio<T>;

    #[inline]
    fn sub(self, other: O) -> Ratio<T> {
        (*self).sub(other.ratio())
    }
}

impl<T: Copy + Integer, O: Operand<T>> SubAssign<O> for Ratio<T> {
    #[inline]
    fn sub_assign(&mut self, other: O) {
        *self = self.sub(other.ratio());
    }
}

impl<T: Copy + Integer> Ratio<T> {
    /// The product in lowest terms, or `None` if these do not fit the type. The fractions need not be
    /// reduced.
    ///
    /// # Conditions
    ///
    /// The proof requires of the caller:
    ///
    /// - `left_positive`: `pos 0 <ℤ denominator self.now`
    /// - `right_positive`: `pos 0 <ℤ denominator other.now`
    #[inline]
    pub fn checked_mul(&self, other: &Ratio<T>) -> Option<Ratio<T>> {
        match products::checked_mul(self.numer, self.denom, other.numer, other.denom) {
            Some((numer, denom)) => Some(Ratio::new_raw(numer, denom)),
            None => None,
        }
    }

    /// The product in lowest terms, also by the symbol `*`. It requires that `checked_mul` returns
    /// `Some`.
    ///
    /// # Conditions
    ///
    /// The proof requires of the caller:
    ///
    /// - `left_positive`: `pos 0 <ℤ denominator self`
    /// - `right_positive`: `pos 0 <ℤ denominator other`
    /// - `answered`: `ProductCondition T.lo T.hi (numerator self) (denominator self) (numerator other) (denominator other)`
    #[inline]
    pub fn mul(self, other: Ratio<T>) -> Ratio<T> {
        let (numer, denom) = products::mul(self.numer, self.denom, other.numer, other.denom);
        Ratio::new_raw(numer, denom)
    }
}

impl<T: Copy + Integer, O: Operand<T>> Mul<O> for Ratio<T> {
    type Output = Ratio<T>;

    #[inline]
    fn mul(self, other: O) -> Ratio<T> {
        self.mul(other.ratio())
    }
}

impl<T: Copy + Integer, O: Operand<T>> Mul<O> for &Ratio<T> {
    type Output = Ratio<T>;

    #[inline]
    fn mul(self, other: O) -> Ratio<T> {
        (*self).mul(other.ratio())
    }
}

impl<T: Copy + Integer, O: Operand<T>> MulAssign<O> for Ratio<T> {
    #[inline]
    fn mul_assign(&mut self, other: O) {
        *self = self.mul(other.ratio());
    }
}

impl<T: Copy + Integer> Ratio<T> {
    /// The quotient in lowest terms, or `None` if the divisor is 0 or these do not fit the type. The
    /// fractions need not be reduced.
    ///
    /// # Conditions
    ///
    /// The proof requires of the caller:
    ///
    /// - `left_positive`: `pos 0 <ℤ denominator self.now`
    /// - `right_positive`: `pos 0 <ℤ denominator other.now`
    #[inline]
    pub fn checked_div(&self, other: &Ratio<T>) -> Option<Ratio<T>> {
        match products::checked_div(self.numer, self.denom, other.numer, other.denom) {
            Some((numer, denom)) => Some(Ratio::new_raw(numer, denom)),
            None => None,
        }
    }

    /// The quotient in lowest terms, also by the symbol `/`. It requires that `checked_div` returns
    /// `Some`, so the divisor may not be 0.
    ///
    /// # Conditions
    ///
    /// The proof requires of the caller:
    ///
    /// - `left_positive`: `pos 0 <ℤ denominator self`
    /// - `right_positive`: `pos 0 <ℤ denominator other`
    /// - `answered`: `QuotientCondition T.lo T.hi (numerator self) (denominator self) (numerator other) (denominator other)`
    #[inline]
    pub fn div(self, other: Ratio<T>) -> Ratio<T> {
        let (numer, denom) = products::div(self.numer, self.denom, other.numer, other.denom);
        Ratio::new_raw(numer, denom)
    }
}

impl<T: Copy + Integer, O: Operand<T>> Div<O> for Ratio<T> {
    type Output = Ratio<T>;

    #[inline]
    fn div(self, other: O) -> Ratio<T> {
        self.div(other.ratio())
    }
}

impl<T: Copy + Integer, O: Operand<T>> Div<O> for &Ratio<T> {
    type Output = Ratio<T>;

    #[inline]
    fn div(self, other: O) -> Ratio<T> {
        (*self).div(other.ratio())
    }
}

impl<T: Copy + Integer, O: Operand<T>> DivAssign<O> for Ratio<T> {
    #[inline]
    fn div_assign(&mut self, other: O) {
        *self = self.div(other.ratio());
    }
}

impl<T: Copy + Integer> Ratio<T> {
    /// The lowest terms of `x - t*y`, where `t` is the quotient `x/y` cut towards zero: 3/4 by 1/2
    /// leaves 1/4. The remainder is 0 or has the sign of `x`, and it is nearer to 0 than `y`. The
    /// call returns `None` exactly if the divisor is 0, or if the least common denominator or a
    /// numerator over it does not fit the type. The fields are taken as they are, not reduced.
    ///
    /// # Conditions
    ///
    /// The proof requires of the caller:
    ///
    /// - `left_positive`: `pos 0 <ℤ denominator self.now`
    /// - `right_positive`: `pos 0 <ℤ denominator other.now`
    #[inline]
    pub fn checked_rem(&self, other: &Ratio<T>) -> Option<Ratio<T>> {
        match remainder::checked_rem(self.numer, self.denom, other.numer, other.denom) {
            Some((numer, denom)) => Some(Ratio::new_raw(numer, denom)),
            None => None,
        }
    }

    /// The remainder in lowest terms, also by the symbol `%`. It requires that `checked_rem` returns
    /// `Some`.
    ///
    /// # Conditions
    ///
    /// The proof requires of the caller:
    ///
    /// - `left_positive`: `pos 0 <ℤ denominator self`
    /// - `right_positive`: `pos 0 <ℤ denominator other`
    /// - `answered`: `RemainderHeld T.lo T.hi (numerator self) (denominator self) (numerator other) (denominator other)`
    #[inline]
    pub fn rem(self, other: Ratio<T>) -> Ratio<T> {
        let (numer, denom) = remainder::rem(self.numer, self.denom, other.numer, other.denom);
        Ratio::new_raw(numer, denom)
    }
}

impl<T: Copy + Integer, O: Operand<T>> Rem<O> for Ratio<T> {
    type Output = Ratio<T>;

    #[inline]
    fn rem(self, other: O) -> Ratio<T> {
        self.rem(other.ratio())
    }
}

impl<T: Copy + Integer, O: Operand<T>> Rem<O> for &Ratio<T> {
    type Output = Ratio<T>;

    #[inline]
    fn rem(self, other: O) -> Ratio<T> {
        (*self).rem(other.ratio())
    }
}

impl<T: Copy + Integer, O: Operand<T>> RemAssign<O> for Ratio<T> {
    #[inline]
    fn rem_assign(&mut self, other: O) {
        *self = self.rem(other.ratio());
    }
}
