//! What the sources of the jobs import: fractions by num-rational, the plain calculator, and a `Vec` with the calls of Rattle's.

use crate::plain_calculator::answer_all;
use num_integer::Integer;
use num_rational::Ratio;
use num_traits::Zero;
use std::convert::Infallible;
use std::ops::Deref;

pub use std::collections::hash_map::DefaultHasher;
pub use std::hash::{Hash, Hasher};

/// A fraction of num-rational. Each one here is in lowest terms.
#[derive(Clone, Copy, PartialEq, Eq, PartialOrd, Ord)]
pub struct Reduced<T: Clone + Integer>(Ratio<T>);

pub type Reduced64 = Reduced<i64>;

impl<T: Clone + Integer> Reduced<T> {
    pub fn numer(&self) -> &T {
        self.0.numer()
    }

    pub fn denom(&self) -> &T {
        self.0.denom()
    }
}

impl Reduced64 {
    pub fn zero() -> Reduced64 {
        Reduced(Ratio::zero())
    }

    /// No job has `i64::MIN` as a number, so the lowest terms fit.
    pub fn checked_new(numer: i64, denom: i64) -> Option<Reduced64> {
        (denom != 0).then(|| Reduced(Ratio::new(numer, denom)))
    }

    pub fn to_ratio(self) -> Ratio<i64> {
        self.0
    }

    /// num-rational has no such call. Here no fraction is below 0.
    pub fn simplest_between(low: &Reduced64, high: &Reduced64) -> Option<Reduced64> {
        let between = || simplest((*low.numer(), *low.denom()), (*high.numer(), *high.denom()));
        (low < high).then(|| Reduced(Ratio::from(between())))
    }
}

/// The simplest fraction between two, by their continued fractions. The first one is at least 0 and below the second, which may be 1/0.
fn simplest(low: (i64, i64), high: (i64, i64)) -> (i64, i64) {
    let (whole, rest) = low.0.div_rem(&low.1);
    if (whole + 1) * high.1 < high.0 {
        return (whole + 1, 1);
    }
    let (numer, denom) = simplest((high.1, high.0 - whole * high.1), (low.1, rest));
    (whole * numer + denom, numer)
}

/// By the fields, which is enough for lowest terms. The jobs also hash the `Ratio`, by num-rational.
impl Hash for Reduced64 {
    fn hash<H: Hasher>(&self, state: &mut H) {
        self.numer().hash(state);
        self.denom().hash(state);
    }
}

pub struct Counted<T>(T);

impl<T> Counted<T> {
    pub fn new(device: T) -> Counted<T> {
        Counted(device)
    }

    pub fn into_inner(self) -> T {
        self.0
    }
}

/// Writes the answers to all lines. Neither device can fail here, so one number stands for each fault.
pub fn run(lines: &mut Counted<&[u8]>, answers: &mut Counted<Vec<u8>>) -> Result<(), u8> {
    answer_all(lines.0, &mut answers.0.0).map_err(|_| 0)
}

/// In Rattle a list gets its memory from a handle, and each call that takes memory returns an error if there is none.
pub struct Vec<T>(std::vec::Vec<T>);

#[derive(Clone, Copy)]
pub struct Global;

pub type AllocError = Infallible;

impl<T> Vec<T> {
    pub fn new(_: Global) -> Vec<T> {
        Vec(std::vec::Vec::new())
    }

    pub fn as_slice(&self) -> &[T] {
        &self.0
    }

    pub fn push(&mut self, item: T) -> Result<(), AllocError> {
        self.0.push(item);
        Ok(())
    }

    pub fn extend_from_slice(&mut self, items: &[T]) -> Result<(), AllocError>
    where
        T: Clone,
    {
        self.0.extend_from_slice(items);
        Ok(())
    }

    pub fn sort(&mut self) -> Result<(), AllocError>
    where
        T: Ord,
    {
        self.0.sort();
        Ok(())
    }
}

impl<T> Deref for Vec<T> {
    type Target = [T];

    fn deref(&self) -> &[T] {
        &self.0
    }
}
