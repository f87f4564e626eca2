// Erased from crates/ratio_c/src/hash.rt by rust/erase: not to be edited.
//! The hash of a fraction, by its value, and the hash of one in lowest terms, which stirs its two numbers by two products.

use crate::proved::ratio_c::code::{ANSWERED, DENOMINATOR_NOT_POSITIVE, ZERO_DENOMINATOR};
use crate::proved::ratio_c::crossing::{Digest, OneFraction};
use crate::proved::ratio_c::each::Call;
use bakhsney::proved::ratio_core::{CodeList, Steps, Taken, hash_counted};
use bakhsney::proved::ratio_integer::Integer;

/// A hash is multiplied by this before it takes the next code.
pub const MULTIPLIER: u64 = 0x9e37_79b9_7f4a_7c15;

/// A hash. If there is none, the code says why, and `hash` is 0.
#[repr(C)]
pub struct Hash {
    pub code: u32,
    pub hash: u64,
}

/// The hash of the codes so far.
pub struct Mixed {
    pub hash: u64,
    pub taken: Taken,
}

impl<T: Digest> CodeList<T> for Mixed {
    #[inline]
    fn take(&mut self, t: T) {
        self.hash = self.hash.wrapping_mul(MULTIPLIER).wrapping_add(t.residue());
        self.taken.note(&t);
    }
}

/// The hash of a fraction's codes.
///
/// # Conditions
///
/// The proof requires of the caller:
///
/// - `T.value d ≢ pos 0`
#[inline]
fn hash_of<T: Digest>(n: T, d: T) -> u64 {
    let mut list = Mixed {
        hash: 0,
        taken: Taken::none(),
    };
    hash_counted(n, d, &mut list, &mut Steps::new());
    list.hash
}

/// The hash of a fraction.
#[derive(Clone, Copy)]
pub struct Hashing;

impl<F: OneFraction> Call<F, Hash> for Hashing {
    #[inline(always)]
    fn answer(&self, x: &F) -> Hash {
        let (n, d) = x.fraction();
        if d.is_zero() {
            Hash {
                code: ZERO_DENOMINATOR,
                hash: 0,
            }
        } else {
            Hash {
                code: ANSWERED,
                hash: hash_of(n, d),
            }
        }
    }
}

/// The hash of a fraction's two numbers. In lowest terms it is one hash for each value.
#[derive(Clone, Copy)]
pub struct LowestHashing;

impl<F: OneFraction> Call<F, Hash> for LowestHashing {
    #[inline(always)]
    fn answer(&self, x: &F) -> Hash {
        let (n, d) = x.fraction();
        if F::Inside::ZERO < d {
            let sum = stir(n.residue()).wrapping_add(d.residue());
            Hash {
                code: ANSWERED,
                hash: stir(sum),
            }
        } else {
            Hash {
                code: DENOMINATOR_NOT_POSITIVE,
                hash: 0,
            }
        }
    }
}

/// The product with the multiplier, modulo 2^64, with its halves exchanged: the upper half of a product, which depends
/// on all bits of the number, becomes the lower one, which tables use.
#[inline(always)]
fn stir(n: u64) -> u64 {
    let product = n.wrapping_mul(MULTIPLIER);
    (product % (1 << 32)) * (1 << 32) + product / (1 << 32)
}
