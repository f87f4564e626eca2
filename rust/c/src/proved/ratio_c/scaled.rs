// Erased from crates/ratio_c/src/scaled.rt by rust/erase: not to be edited.
//! Fractions from numbers with a decimal scale, as databases keep them: 25/2 from 1250 with the scale 2.

use crate::proved::ratio_c::code::BAD_OPTION;
use crate::proved::ratio_c::crossing::{Digest, Reply, checked, refused};
use crate::proved::ratio_c::each::Call;
use crate::proved::ratio_c::one_fraction::cast;
use crate::proved::ratio_c::wide::Wide;
use bakhsney::proved::ratio_integer::lowest_terms;
use core::marker::PhantomData;

/// A number and its scale: the value is the number by 10^scale, so 1250 with the scale 2 is 12.50.
#[repr(C)]
pub struct Scaled {
    pub number: Wide,
    pub scale: i32,
}

/// The call that gives fractions of the type `T`: 1250 with the scale 2 gives 25/2.
pub struct Scaling<T> {
    marker: PhantomData<T>,
}

impl<T> Scaling<T> {
    /// The call that makes fractions of the type `T` from numbers with a scale.
    #[inline(always)]
    pub fn new() -> Scaling<T> {
        Scaling {
            marker: PhantomData,
        }
    }
}

impl<T: Digest, A: Reply<T>> Call<Scaled, A> for Scaling<T> {
    #[inline(always)]
    fn answer(&self, x: &Scaled) -> A {
        if x.scale < 0 || 38 < x.scale {
            return refused(BAD_OPTION);
        }
        let n = x.number.number();
        checked(from_scaled::<T>(n, x.scale.unsigned_abs()))
    }
}

/// The lowest terms of the number by 10^scale, or `None` if they do not fit the type.
///
/// # Conditions
///
/// The proof requires of the caller:
///
/// - `scale ≤ 38`
#[inline]
fn from_scaled<T: Digest>(n: i128, scale: u32) -> Option<(T, T)> {
    let power = 10u128.pow(scale) as i128;
    let (numer, denom) = lowest_terms(n, power);
    cast::<i128, T>(numer, denom)
}
