// Erased from crates/ratio_integer/src/integer.rt by rust/erase: not to be edited.
//! The traits `Integer` (range, constants, arithmetic, gcd and lcm, halves, conversions such as `to_u128`, laws), `SignedInteger`
//! (negatives) and `Primitive` (bits), and what tells a proof that a number is in range.

use core::hash::Hash;

/// A type of the whole numbers from `lo` to `hi`. Each value has one of these numbers. Values are equal,
/// ordered and hashed by their numbers. Values with the same number need not be identical.
pub trait Integer: Copy + Ord + Hash {
    /// The number 0.
    const ZERO: Self;

    /// The number 1.
    const ONE: Self;

    /// The least number.
    const MIN: Self;

    /// The greatest number.
    const MAX: Self;

    /// Whether `exact_sum` and `exact_diff` compute a result. If not, they always return `None`.
    const EXACT_SUMS: bool;

    /// Whether the remainder of two fractions is exact. It can be if each number of the type fits an `i128`, or
    /// each fits a `u128`.
    const EXACT_REMAINDERS: bool;

    /// The sum. It requires that `try_plus` returns `Some`.
    ///
    /// # Conditions
    ///
    /// The proof requires of the caller:
    ///
    /// - `IsHeld lo hi (value self +ℤ value o)`
    fn plus(self, o: Self) -> Self;

    /// The difference. It requires that `try_minus` returns `Some`.
    ///
    /// # Conditions
    ///
    /// The proof requires of the caller:
    ///
    /// - `IsHeld lo hi (value self -ℤ value o)`
    fn minus(self, o: Self) -> Self;

    /// The product. It requires that `try_times` returns `Some`.
    ///
    /// # Conditions
    ///
    /// The proof requires of the caller:
    ///
    /// - `IsHeld lo hi (value self *ℤ value o)`
    fn times(self, o: Self) -> Self;

    /// The product, or `None` if it does not fit the type.
    fn try_times(self, o: Self) -> Option<Self>;

    /// The quotient cut towards zero, and the remainder, which is 0 or has the sign of `self`: -3 and -1 for
    /// -7 by 2. The quotient always fits the type, except for `-hi-1` by -1.
    ///
    /// # Conditions
    ///
    /// The proof requires of the caller:
    ///
    /// - `nonzero`: `value o ≢ pos 0`
    /// - `held`: `¬ (IsAboveMax hi (value self) (value o))`
    fn div_rem(self, o: Self) -> (Self, Self);

    /// The number as an `i128`, or `None` if it does not fit that type. The
    /// contract also says that the number lies from `lo` to `hi`.
    fn to_i128(self) -> Option<i128>;

    /// The number as a `u128`, or `None` if it does not fit that type.
    fn to_u128(self) -> Option<u128>;

    /// The value with the number `n`, or `None` if `n` does not fit the type.
    fn from_i128(n: i128) -> Option<Self>;

    /// The value with the number `n`, or `None` if `n` does not fit the type.
    fn from_u128(n: u128) -> Option<Self>;

    /// The half base, if dividing by it is quick: the root of the count of the type's numbers, as 2^32 over `i64`. It is even
    /// and at least 6, the greatest number is 1 less than a multiple of it, and at least half of the numbers are not below 0.
    /// `None` if the type has no such base, or no quick way to divide by it.
    fn half_base() -> Option<Self>;

    /// If `EXACT_SUMS` is true, the lowest terms of `a/b + c/d`, or `None` if they do not fit the type. If it is
    /// false, always `None`.
    ///
    /// # Conditions
    ///
    /// The proof requires of the caller:
    ///
    /// - `left_positive`: `pos 0 <ℤ value b`
    /// - `right_positive`: `pos 0 <ℤ value d`
    fn exact_sum(a: Self, b: Self, c: Self, d: Self) -> Option<(Self, Self)>;

    /// If `EXACT_SUMS` is true, the lowest terms of `a/b - c/d`, or `None` if they do not fit the type. If it is
    /// false, always `None`.
    ///
    /// # Conditions
    ///
    /// The proof requires of the caller:
    ///
    /// - `left_positive`: `pos 0 <ℤ value b`
    /// - `right_positive`: `pos 0 <ℤ value d`
    fn exact_diff(a: Self, b: Self, c: Self, d: Self) -> Option<(Self, Self)>;

    /// Always true. The contract says that the number fits the type.
    #[inline]
    fn held(self) -> bool {
        let _ = self.to_i128();
        true
    }

    /// Whether the number is 0.
    #[inline]
    fn is_zero(self) -> bool {
        self == Self::ZERO
    }

    /// Whether the number is 1.
    #[inline]
    fn is_one(self) -> bool {
        self == Self::ONE
    }

    /// Whether 2 divides the number.
    #[inline]
    fn is_even(self) -> bool {
        let two = Self::ONE.plus(Self::ONE);
        let (_, left_over) = self.div_rem(two);
        left_over.is_zero()
    }

    /// Whether 2 does not divide the number.
    #[inline]
    fn is_odd(self) -> bool {
        !self.is_even()
    }

    /// The sum, or `None` if it does not fit the type.
    #[inline]
    fn try_plus(self, o: Self) -> Option<Self> {
        if o < Self::ZERO {
            if self < Self::MIN.minus(o) {
                return None;
            }
        } else if Self::MAX.minus(o) < self {
            return None;
        }
        Some(self.plus(o))
    }

    /// The difference, or `None` if it does not fit the type.
    #[inline]
    fn try_minus(self, o: Self) -> Option<Self> {
        if o < Self::ZERO {
            if Self::MAX.plus(o) < self {
                return None;
            }
        } else if self < Self::MIN.plus(o) {
            return None;
        }
        Some(self.minus(o))
    }

    /// The least common multiple, or `None` if it does not fit the type. It is
    /// never negative, and it is 0 if either number is 0.
    #[inline]
    fn try_lcm(self, o: Self) -> Option<Self> {
        if self.is_zero() || o.is_zero() {
            return Some(Self::ZERO);
        }
        // The gcd of the least number and itself may not fit the type.
        if self == o {
            return if self < Self::ZERO {
                Self::ZERO.try_minus(self)
            } else {
                Some(self)
            };
        }
        let (part, _) = self.div_rem(self.gcd(o));
        match part.try_times(o) {
            None => None,
            Some(product) => {
                if product < Self::ZERO {
                    Self::ZERO.try_minus(product)
                } else {
                    Some(product)
                }
            }
        }
    }

    /// The floored quotient, and the remainder, which is 0 or has the sign of `o`: -4 and 1 for -7 by 2. The
    /// quotient always fits the type, except for `-hi-1` by -1.
    ///
    /// # Conditions
    ///
    /// The proof requires of the caller:
    ///
    /// - `nonzero`: `value o ≢ pos 0`
    /// - `held`: `¬ (IsAboveMax hi (value self) (value o))`
    #[inline]
    fn div_mod_floor(self, o: Self) -> (Self, Self) {
        let (quotient, rest) = self.div_rem(o);
        let other_side = if o < Self::ZERO {
            Self::ZERO < rest
        } else {
            rest < Self::ZERO
        };
        if other_side {
            (quotient.minus(Self::ONE), rest.plus(o))
        } else {
            (quotient, rest)
        }
    }

    /// The floored quotient, which is the greatest whole number that is not above the exact one: -4 for -7 by 2.
    ///
    /// # Conditions
    ///
    /// The proof requires of the caller:
    ///
    /// - `nonzero`: `value o ≢ pos 0`
    /// - `held`: `¬ (IsAboveMax hi (value self) (value o))`
    #[inline]
    fn div_floor(self, o: Self) -> Self {
        self.div_mod_floor(o).0
    }

    /// The remainder of a floored division, which is 0 or has the sign of `o`: 1 for -7 by 2.
    ///
    /// # Conditions
    ///
    /// The proof requires of the caller:
    ///
    /// - `nonzero`: `value o ≢ pos 0`
    /// - `held`: `¬ (IsAboveMax hi (value self) (value o))`
    #[inline]
    fn mod_floor(self, o: Self) -> Self {
        self.div_mod_floor(o).1
    }

    /// The high and the low half: the floored quotient and the rest by the half base, as -1 and 2^32-5 of -5 over `i64`. The
    /// product of two low halves may not fit the type, but half of it does. Of any other base above 0 nothing is said.
    ///
    /// # Conditions
    ///
    /// The proof requires of the caller:
    ///
    /// - `pos 0 <ℤ value base`
    #[inline]
    fn halves(self, base: Self) -> (Self, Self) {
        self.div_mod_floor(base)
    }

    /// The greatest common divisor. It is never negative, and for 0 and 0 it is 0. It fits the type, unless
    /// one number is `-hi-1` and the other is `-hi-1` or 0.
    ///
    /// # Conditions
    ///
    /// The proof requires of the caller:
    ///
    /// - `¬ (IsGcdAboveMax hi (value self) (value o))`
    #[inline]
    fn gcd(self, o: Self) -> Self {
        let mut x = self;
        let mut y = o;
        while !y.is_zero() {
            // Dividing the least number by -1 may overflow.
            if y < Self::ZERO && y.plus(Self::ONE).is_zero() {
                return Self::ONE;
            }
            let (_, rest) = x.div_rem(y);
            x = y;
            y = rest;
        }
        if x < Self::ZERO {
            Self::ZERO.minus(x)
        } else {
            x
        }
    }

    /// The greatest common divisors of `a` and `b` and of `c` and `d`. A type may compute both in less time than
    /// one after the other.
    ///
    /// # Conditions
    ///
    /// The proof requires of the caller:
    ///
    /// - `left_held`: `¬ (IsGcdAboveMax hi (value a) (value b))`
    /// - `right_held`: `¬ (IsGcdAboveMax hi (value c) (value d))`
    #[inline]
    fn gcds(a: Self, b: Self, c: Self, d: Self) -> (Self, Self) {
        (a.gcd(b), c.gcd(d))
    }

    /// The least common multiple. It is never negative, and it is 0 if either
    /// number is 0. The call requires that `try_lcm` returns `Some`.
    ///
    /// # Conditions
    ///
    /// The proof requires of the caller:
    ///
    /// - `LcmHeld lo hi (value self) (value o)`
    #[inline]
    fn lcm(self, o: Self) -> Self {
        match self.try_lcm(o) {
            Some(multiple) => multiple,
            None => unreachable!(),
        }
    }

    /// Whether the number is a whole number times `o`. Of 0, only 0 is a multiple.
    #[inline]
    fn is_multiple_of(self, o: Self) -> bool {
        if o.is_zero() {
            return self.is_zero();
        }
        // Dividing the least number by -1 may overflow.
        if o < Self::ZERO && o.plus(Self::ONE).is_zero() {
            return true;
        }
        let (_, rest) = self.div_rem(o);
        rest.is_zero()
    }
}

/// A type that has the negative of each of its numbers, except perhaps of the least.
pub trait SignedInteger: Integer {
    /// The negative. It requires that `try_negate` returns `Some`.
    ///
    /// # Conditions
    ///
    /// The proof requires of the caller:
    ///
    /// - `IsHeld Self.lo Self.hi (neg_ℤ (Self.value self))`
    #[inline]
    fn negate(self) -> Self {
        Self::ZERO.minus(self)
    }

    /// The negative, or `None` if it does not fit the type. That can only be for the least number, such as -128 over `i8`.
    #[inline]
    fn try_negate(self) -> Option<Self> {
        Self::ZERO.try_minus(self)
    }
}

/// A type that has every whole number of `BITS` bits, signed or unsigned.
pub trait Primitive: Integer {
    const BITS: u32;
}
