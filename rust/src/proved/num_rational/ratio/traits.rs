// Erased from crates/num_rational/src/ratio/traits.rt by rust/erase: not to be edited.
//! The impls of std's traits for `Ratio` (`Clone`, `From`, order, `Hash`, `Neg`, `FromStr`, `Display` and other formats), and of `Inv` of
//! `num_traits`.
//!
//! `printing.rt` says when the clauses of `Display`, and of the other traits that print, hold.

use super::Ratio;
use crate::proved::num_rational::printing::{write_base_ten, write_in_base};
use num_traits::Inv;
use crate::proved::ratio_core::{BaseTenText, CodeList, Form, ParseRatioError, Steps, Taken, cross_order};
use crate::proved::ratio_integer::{Integer, Primitive, SignedInteger};

use core::cmp::Ordering;
use core::fmt;
use core::fmt::{Binary, Display, Formatter, LowerHex, Octal, UpperHex, Write};
use core::hash::{Hash, Hasher};
use core::ops::Neg;
use core::str::FromStr;

impl<T: Copy + Integer> Clone for Ratio<T> {
    #[inline]
    fn clone(&self) -> Ratio<T> {
        *self
    }
}

impl<T: Copy + Integer> Default for Ratio<T> {
    #[inline]
    fn default() -> Ratio<T> {
        Ratio::zero()
    }
}

impl<T: Copy + Integer> From<T> for Ratio<T> {
    #[inline]
    fn from(t: T) -> Ratio<T> {
        Ratio::from_integer(t)
    }
}

impl<T: Copy + Integer> From<Ratio<T>> for (T, T) {
    #[inline]
    fn from(x: Ratio<T>) -> (T, T) {
        x.into_raw()
    }
}

impl<T: Copy + Integer> PartialEq for Ratio<T> {
    /// Whether the values are equal: 1/2 and 2/4 are. In lowest terms that is whether the fields are
    /// equal.
    #[inline]
    fn eq(&self, other: &Ratio<T>) -> bool {
        self.cmp(other).is_eq()
    }
}

impl<T: Copy + Integer> Eq for Ratio<T> {
}

impl<T: Copy + Integer> PartialOrd for Ratio<T> {
    #[inline]
    fn partial_cmp(&self, other: &Ratio<T>) -> Option<Ordering> {
        Some(self.cmp(other))
    }
}

impl<T: Copy + Integer> Ord for Ratio<T> {
    /// The order, by `cross_order`, which counts its divisions and divides only if it must.
    #[inline]
    fn cmp(&self, other: &Ratio<T>) -> Ordering {
        let (n, d) = (self.numer, self.denom);
        let (m, e) = (other.numer, other.denom);
        cross_order(n, d, m, e, &mut Steps::new())
    }
}

/// A hasher as a list of codes. It takes each code by the element's own `hash`.
struct HashedCodes<'a, H> {
    state: &'a mut H,
    taken: Taken,
}

impl<'a, T: Integer, H: Hasher> CodeList<T> for HashedCodes<'a, H> {
    #[inline]
    fn take(&mut self, t: T) {
        t.hash(self.state);
        self.taken.note(&t);
    }
}

/// Hands the codes of `x` to the hasher behind `list`.
#[inline]
fn hash_codes<T: Copy + Integer, H: Hasher>(x: &Ratio<T>, list: &mut HashedCodes<'_, H>) {
    x.hash_counted(list, &mut Steps::new());
}

impl<T: Copy + Integer> Hash for Ratio<T> {
    /// Feeds the hasher with the codes of `hash_counted`, in their order, each by the element's own
    /// `hash`.
    #[inline]
    fn hash<H: Hasher>(&self, state: &mut H) {
        let mut list = HashedCodes {
            state,
            taken: Taken::none(),
        };
        hash_codes(self, &mut list);
        let HashedCodes { state: _, taken: _ } = list;
    }
}

impl<T: Copy + SignedInteger> Neg for Ratio<T> {
    type Output = Ratio<T>;

    #[inline]
    fn neg(self) -> Ratio<T> {
        self.neg()
    }
}

impl<T: Copy + SignedInteger> Neg for &Ratio<T> {
    type Output = Ratio<T>;

    #[inline]
    fn neg(self) -> Ratio<T> {
        (*self).neg()
    }
}

impl<T: Copy + Integer> Inv for Ratio<T> {
    type Output = Ratio<T>;

    #[inline]
    fn inv(self) -> Ratio<T> {
        self.recip()
    }
}

impl<T: Copy + Integer> Inv for &Ratio<T> {
    type Output = Ratio<T>;

    #[inline]
    fn inv(self) -> Ratio<T> {
        self.recip()
    }
}

impl<T: Primitive> FromStr for Ratio<T> {
    type Err = ParseRatioError;

    #[inline]
    fn from_str(text: &str) -> Result<Ratio<T>, ParseRatioError> {
        Ratio::<T>::from_str(text)
    }
}

impl<T: Primitive> Display for Ratio<T> {
    #[inline]
    fn fmt(&self, f: &mut Formatter<'_>) -> fmt::Result {
        let mut text = BaseTenText::empty();
        self.put_base_ten_text(&mut text);
        write_base_ten(text.as_str(), f)
    }
}

impl<T: Primitive> Binary for Ratio<T> {
    #[inline]
    fn fmt(&self, f: &mut Formatter<'_>) -> fmt::Result {
        write_in_base(self, Form::Binary, "0b", f)
    }
}

impl<T: Primitive> Octal for Ratio<T> {
    #[inline]
    fn fmt(&self, f: &mut Formatter<'_>) -> fmt::Result {
        write_in_base(self, Form::Octal, "0o", f)
    }
}

impl<T: Primitive> LowerHex for Ratio<T> {
    #[inline]
    fn fmt(&self, f: &mut Formatter<'_>) -> fmt::Result {
        write_in_base(self, Form::LowerHex, "0x", f)
    }
}

impl<T: Primitive> UpperHex for Ratio<T> {
    #[inline]
    fn fmt(&self, f: &mut Formatter<'_>) -> fmt::Result {
        write_in_base(self, Form::UpperHex, "0x", f)
    }
}
