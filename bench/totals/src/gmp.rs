//! Fractions of GMP, as `gmp.h` declares them.
use bakhsney::Reduced;
use std::ffi::CString;
use std::mem::MaybeUninit;
use std::os::raw::{c_char, c_int, c_long, c_ulong};

#[repr(C)]
struct Number {
    room: c_int,
    size: c_int,
    digits: *mut c_ulong,
}

#[repr(C)]
struct Pair {
    numer: Number,
    denom: Number,
}

#[link(name = "gmp")]
extern "C" {
    fn __gmpq_init(x: *mut Pair);
    fn __gmpq_set_si(x: *mut Pair, numer: c_long, denom: c_ulong);
    fn __gmpq_set_str(x: *mut Pair, text: *const c_char, base: c_int) -> c_int;
    fn __gmpq_add(sum: *mut Pair, x: *const Pair, y: *const Pair);
    fn __gmpq_clear(x: *mut Pair);
}

/// A fraction in lowest terms.
pub struct Fraction(Pair);

impl Fraction {
    pub fn new(numer: i64, denom: i64) -> Fraction {
        let mut pair = MaybeUninit::uninit();
        // SAFETY: `__gmpq_init` makes a fraction of the pair, and `__gmpq_set_si` sets its numbers, which are in lowest terms.
        unsafe {
            __gmpq_init(pair.as_mut_ptr());
            __gmpq_set_si(pair.as_mut_ptr(), numer, denom as c_ulong);
            Fraction(pair.assume_init())
        }
    }

    pub fn of_wide(x: &Reduced<i128>) -> Fraction {
        let text = CString::new(x.to_string()).expect("digits and a bar");
        let mut fraction = Fraction::new(0, 1);
        // SAFETY: `Fraction::new` made the fraction, and the text ends in 0.
        let refused = unsafe { __gmpq_set_str(&mut fraction.0, text.as_ptr(), 10) };
        assert_eq!(refused, 0, "GMP reads {x}");
        fraction
    }
}

impl Drop for Fraction {
    fn drop(&mut self) {
        // SAFETY: the fraction was made by `__gmpq_init`.
        unsafe { __gmpq_clear(&mut self.0) }
    }
}

/// The sum of the fractions.
pub fn sum(values: &[Fraction]) -> Fraction {
    let mut sum = Fraction::new(0, 1);
    for x in values {
        // SAFETY: both fractions were made by `__gmpq_init`. The sum may be an operand, too.
        unsafe { __gmpq_add(&mut sum.0, &sum.0, &x.0) }
    }
    sum
}
