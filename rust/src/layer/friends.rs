//! Fractions for other crates. Each file is one of them, behind the cargo feature of its name.
//!
//! The crates that draw values for tests draw what the functions here make a fraction of.
#[cfg(feature = "arbitrary")]
mod arbitrary;
#[cfg(feature = "postgres-types")]
mod postgres_types;
#[cfg(feature = "proptest")]
mod proptest;
#[cfg(feature = "quickcheck")]
mod quickcheck;
#[cfg(feature = "rand")]
mod rand;

#[cfg(feature = "rand")]
pub use self::rand::FractionsBetween;

#[cfg(any(feature = "arbitrary", feature = "proptest", feature = "quickcheck"))]
mod drawn {
    use super::super::big_fraction::{divided, BigFraction};
    use super::super::integer::Integer;
    use super::super::reduced::Reduced;
    use alloc::vec::Vec;

    /// A numerator and a denominator, each beside the number of bits that it keeps.
    pub(super) type Numbers<T> = ((T, u8), (T, u8));

    /// The numbers that have the highest digits, and perhaps the digits of 64 bits below them, the lowest first.
    pub(super) type Digits = (Numbers<i64>, Option<(Vec<u64>, Vec<u64>)>);

    /// The lowest terms of two numbers, or the first one over 1 if the second one is 0 or the lowest terms do not fit the type.
    pub(super) fn of_numbers<T: Integer>((numer, denom): Numbers<T>) -> Reduced<T> {
        let (numer, denom) = (with_bits(numer), with_bits(denom));
        Reduced::checked_new(numer, denom).unwrap_or_else(|| Reduced::from_integer(numer))
    }

    /// The highest bits of a number. So small numbers are as common as great ones, and many sums fit the type. The fewer bits, the simpler
    /// the number.
    fn with_bits<T: Integer>((number, bits): (T, u8)) -> T {
        let all = T::zero().count_zeros();
        number >> (all - 1 - u32::from(bits) % all) as usize
    }

    /// A fraction of two `i64`, or one with more digits.
    pub(super) fn of_digits((highest, below): Digits) -> BigFraction {
        let highest = of_numbers(highest);
        let (mut numer, mut denom) = below.unwrap_or_default();
        numer.push(highest.numer().unsigned_abs());
        denom.push(highest.denom().unsigned_abs());
        divided(BigFraction::try_from_digits(highest.is_negative(), &numer, &denom), "denominator == 0")
    }
}
