// Erased from crates/ratio_c/src/floats.rt by rust/erase: not to be edited.
//! Fractions with the values of floats, the simplest ones that round to floats, and the floats
//! nearest to fractions.

use crate::proved::ratio_c::code::{ANSWERED, DENOMINATOR_NOT_POSITIVE};
use crate::proved::ratio_c::crossing::{Digest, OneFraction, Reply, checked};
use crate::proved::ratio_c::each::Call;
use crate::proved::ratio_c::one_fraction::positive;
use bakhsney::proved::ratio_decimal::float::exact::from_float;
use bakhsney::proved::ratio_decimal::float::nearest::to_f64;
use bakhsney::proved::ratio_decimal::float::rationalize::rationalize;
use core::marker::PhantomData;

/// A float. If there is none, the code says why, and the value is 0.
#[repr(C)]
pub struct Float {
    pub code: u32,
    pub value: f64,
}

/// The call that gives a fraction of the type `T` with exactly the value of a float: 0.75 gives 3/4.
pub struct FromFloat<T> {
    marker: PhantomData<T>,
}

impl<T> FromFloat<T> {
    /// The call that gives floats as fractions of the type `T`.
    #[inline(always)]
    pub fn new() -> FromFloat<T> {
        FromFloat {
            marker: PhantomData,
        }
    }
}

impl<T: Digest, A: Reply<T>> Call<f64, A> for FromFloat<T> {
    #[inline(always)]
    fn answer(&self, x: &f64) -> A {
        checked(from_float::<T>(*x))
    }
}

/// The call that gives the simplest fraction that rounds to a float: 0.1 gives 1/10.
pub struct Rationalizing<T> {
    marker: PhantomData<T>,
}

impl<T> Rationalizing<T> {
    /// The call that finds the simplest fractions of the type `T` that round to floats.
    #[inline(always)]
    pub fn new() -> Rationalizing<T> {
        Rationalizing {
            marker: PhantomData,
        }
    }
}

impl<T: Digest, A: Reply<T>> Call<f64, A> for Rationalizing<T> {
    #[inline(always)]
    fn answer(&self, x: &f64) -> A {
        checked(rationalize::<T>(*x))
    }
}

/// The float nearest to a fraction: 1/3 gives 0.3333333333333333.
#[derive(Clone, Copy)]
pub struct ToFloat;

impl<F: OneFraction> Call<F, Float> for ToFloat {
    #[inline(always)]
    fn answer(&self, x: &F) -> Float {
        match positive(x) {
            Some((n, d)) => Float {
                code: ANSWERED,
                value: to_f64(n, d),
            },
            None => Float {
                code: DENOMINATOR_NOT_POSITIVE,
                value: 0.0,
            },
        }
    }
}
