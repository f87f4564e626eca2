// Erased from crates/ratio_integer/src/unsigned_types.rt by rust/erase: not to be edited.
// Written by templates/write from templates/impls.rt.txt: change that file, and write this one anew.
//! The traits `Integer` and `Primitive` for the six unsigned types, with the calls in the order that the signed types have.

use crate::proved::ratio_integer::binary_gcd::{binary_gcd, binary_gcd_wide, binary_gcds, binary_gcds_wide};
use crate::proved::ratio_integer::integer::{Integer, Primitive};
use crate::proved::ratio_integer::widths;
use num_traits::cast;

impl Integer for u8 {
    const ZERO: u8 = 0;

    const ONE: u8 = 1;

    const MIN: u8 = u8::MIN;

    const MAX: u8 = u8::MAX;

    const EXACT_SUMS: bool = false;

    const EXACT_REMAINDERS: bool = true;

    #[inline]
    fn plus(self, o: u8) -> u8 {
        self + o
    }

    #[inline]
    fn minus(self, o: u8) -> u8 {
        self - o
    }

    #[inline]
    fn times(self, o: u8) -> u8 {
        self * o
    }

    #[inline]
    fn try_times(self, o: u8) -> Option<u8> {
        self.checked_mul(o)
    }

    #[inline]
    fn div_rem(self, o: u8) -> (u8, u8) {
        (self / o, self % o)
    }

    #[inline]
    fn to_i128(self) -> Option<i128> {
        cast(self)
    }

    #[inline]
    fn to_u128(self) -> Option<u128> {
        cast(self)
    }

    #[inline]
    fn from_i128(n: i128) -> Option<u8> {
        cast(n)
    }

    #[inline]
    fn from_u128(n: u128) -> Option<u8> {
        cast(n)
    }

    #[inline]
    fn half_base() -> Option<u8> {
        None
    }

    #[inline]
    fn exact_sum(_a: u8, _b: u8, _c: u8, _d: u8) -> Option<(u8, u8)> {
        None
    }

    #[inline]
    fn exact_diff(_a: u8, _b: u8, _c: u8, _d: u8) -> Option<(u8, u8)> {
        None
    }

    #[inline]
    fn is_zero(self) -> bool {
        self == 0
    }

    #[inline]
    fn is_one(self) -> bool {
        self == 1
    }

    #[inline]
    fn try_plus(self, o: u8) -> Option<u8> {
        self.checked_add(o)
    }

    #[inline]
    fn try_minus(self, o: u8) -> Option<u8> {
        self.checked_sub(o)
    }

    #[inline]
    fn gcd(self, o: u8) -> u8 {
        binary_gcd(self as u64, o as u64) as u8
    }

    #[inline]
    fn gcds(a: u8, b: u8, c: u8, d: u8) -> (u8, u8) {
        let (left, right) = binary_gcds(a as u64, b as u64, c as u64, d as u64);
        (left as u8, right as u8)
    }
}

impl Primitive for u8 {
    const BITS: u32 = 8;
}

impl Integer for u16 {
    const ZERO: u16 = 0;

    const ONE: u16 = 1;

    const MIN: u16 = u16::MIN;

    const MAX: u16 = u16::MAX;

    const EXACT_SUMS: bool = false;

    const EXACT_REMAINDERS: bool = true;

    #[inline]
    fn plus(self, o: u16) -> u16 {
        self + o
    }

    #[inline]
    fn minus(self, o: u16) -> u16 {
        self - o
    }

    #[inline]
    fn times(self, o: u16) -> u16 {
        self * o
    }

    #[inline]
    fn try_times(self, o: u16) -> Option<u16> {
        self.checked_mul(o)
    }

    #[inline]
    fn div_rem(self, o: u16) -> (u16, u16) {
        (self / o, self % o)
    }

    #[inline]
    fn to_i128(self) -> Option<i128> {
        cast(self)
    }

    #[inline]
    fn to_u128(self) -> Option<u128> {
        cast(self)
    }

    #[inline]
    fn from_i128(n: i128) -> Option<u16> {
        cast(n)
    }

    #[inline]
    fn from_u128(n: u128) -> Option<u16> {
        cast(n)
    }

    #[inline]
    fn half_base() -> Option<u16> {
        None
    }

    #[inline]
    fn exact_sum(_a: u16, _b: u16, _c: u16, _d: u16) -> Option<(u16, u16)> {
        None
    }

    #[inline]
    fn exact_diff(_a: u16, _b: u16, _c: u16, _d: u16) -> Option<(u16, u16)> {
        None
    }

    #[inline]
    fn is_zero(self) -> bool {
        self == 0
    }

    #[inline]
    fn is_one(self) -> bool {
        self == 1
    }

    #[inline]
    fn try_plus(self, o: u16) -> Option<u16> {
        self.checked_add(o)
    }

    #[inline]
    fn try_minus(self, o: u16) -> Option<u16> {
        self.checked_sub(o)
    }

    #[inline]
    fn gcd(self, o: u16) -> u16 {
        binary_gcd(self as u64, o as u64) as u16
    }

    #[inline]
    fn gcds(a: u16, b: u16, c: u16, d: u16) -> (u16, u16) {
        let (left, right) = binary_gcds(a as u64, b as u64, c as u64, d as u64);
        (left as u16, right as u16)
    }
}

impl Primitive for u16 {
    const BITS: u32 = 16;
}

impl Integer for u32 {
    const ZERO: u32 = 0;

    const ONE: u32 = 1;

    const MIN: u32 = u32::MIN;

    const MAX: u32 = u32::MAX;

    const EXACT_SUMS: bool = false;

    const EXACT_REMAINDERS: bool = true;

    #[inline]
    fn plus(self, o: u32) -> u32 {
        self + o
    }

    #[inline]
    fn minus(self, o: u32) -> u32 {
        self - o
    }

    #[inline]
    fn times(self, o: u32) -> u32 {
        self * o
    }

    #[inline]
    fn try_times(self, o: u32) -> Option<u32> {
        self.checked_mul(o)
    }

    #[inline]
    fn div_rem(self, o: u32) -> (u32, u32) {
        (self / o, self % o)
    }

    #[inline]
    fn to_i128(self) -> Option<i128> {
        cast(self)
    }

    #[inline]
    fn to_u128(self) -> Option<u128> {
        cast(self)
    }

    #[inline]
    fn from_i128(n: i128) -> Option<u32> {
        cast(n)
    }

    #[inline]
    fn from_u128(n: u128) -> Option<u32> {
        cast(n)
    }

    #[inline]
    fn half_base() -> Option<u32> {
        None
    }

    #[inline]
    fn exact_sum(_a: u32, _b: u32, _c: u32, _d: u32) -> Option<(u32, u32)> {
        None
    }

    #[inline]
    fn exact_diff(_a: u32, _b: u32, _c: u32, _d: u32) -> Option<(u32, u32)> {
        None
    }

    #[inline]
    fn is_zero(self) -> bool {
        self == 0
    }

    #[inline]
    fn is_one(self) -> bool {
        self == 1
    }

    #[inline]
    fn try_plus(self, o: u32) -> Option<u32> {
        self.checked_add(o)
    }

    #[inline]
    fn try_minus(self, o: u32) -> Option<u32> {
        self.checked_sub(o)
    }

    #[inline]
    fn gcd(self, o: u32) -> u32 {
        binary_gcd(self as u64, o as u64) as u32
    }

    #[inline]
    fn gcds(a: u32, b: u32, c: u32, d: u32) -> (u32, u32) {
        let (left, right) = binary_gcds(a as u64, b as u64, c as u64, d as u64);
        (left as u32, right as u32)
    }
}

impl Primitive for u32 {
    const BITS: u32 = 32;
}

impl Integer for u64 {
    const ZERO: u64 = 0;

    const ONE: u64 = 1;

    const MIN: u64 = u64::MIN;

    const MAX: u64 = u64::MAX;

    const EXACT_SUMS: bool = false;

    const EXACT_REMAINDERS: bool = true;

    #[inline]
    fn plus(self, o: u64) -> u64 {
        self + o
    }

    #[inline]
    fn minus(self, o: u64) -> u64 {
        self - o
    }

    #[inline]
    fn times(self, o: u64) -> u64 {
        self * o
    }

    #[inline]
    fn try_times(self, o: u64) -> Option<u64> {
        self.checked_mul(o)
    }

    #[inline]
    fn div_rem(self, o: u64) -> (u64, u64) {
        (self / o, self % o)
    }

    #[inline]
    fn to_i128(self) -> Option<i128> {
        cast(self)
    }

    #[inline]
    fn to_u128(self) -> Option<u128> {
        cast(self)
    }

    #[inline]
    fn from_i128(n: i128) -> Option<u64> {
        cast(n)
    }

    #[inline]
    fn from_u128(n: u128) -> Option<u64> {
        cast(n)
    }

    #[inline]
    fn half_base() -> Option<u64> {
        Some(1 << (u64::BITS / 2))
    }

    #[inline]
    fn exact_sum(_a: u64, _b: u64, _c: u64, _d: u64) -> Option<(u64, u64)> {
        None
    }

    #[inline]
    fn exact_diff(_a: u64, _b: u64, _c: u64, _d: u64) -> Option<(u64, u64)> {
        None
    }

    #[inline]
    fn is_zero(self) -> bool {
        self == 0
    }

    #[inline]
    fn is_one(self) -> bool {
        self == 1
    }

    #[inline]
    fn try_plus(self, o: u64) -> Option<u64> {
        self.checked_add(o)
    }

    #[inline]
    fn try_minus(self, o: u64) -> Option<u64> {
        self.checked_sub(o)
    }

    #[inline]
    fn halves(self, _base: u64) -> (u64, u64) {
        let half = u64::BITS / 2;
        (self.div_euclid(1 << half), self.rem_euclid(1 << half))
    }

    #[inline]
    fn gcd(self, o: u64) -> u64 {
        binary_gcd(self, o)
    }

    #[inline]
    fn gcds(a: u64, b: u64, c: u64, d: u64) -> (u64, u64) {
        binary_gcds(a, b, c, d)
    }
}

impl Primitive for u64 {
    const BITS: u32 = 64;
}

impl Integer for u128 {
    const ZERO: u128 = 0;

    const ONE: u128 = 1;

    const MIN: u128 = u128::MIN;

    const MAX: u128 = u128::MAX;

    const EXACT_SUMS: bool = false;

    const EXACT_REMAINDERS: bool = true;

    #[inline]
    fn plus(self, o: u128) -> u128 {
        self + o
    }

    #[inline]
    fn minus(self, o: u128) -> u128 {
        self - o
    }

    #[inline]
    fn times(self, o: u128) -> u128 {
        self * o
    }

    #[inline]
    fn try_times(self, o: u128) -> Option<u128> {
        self.checked_mul(o)
    }

    #[inline]
    fn div_rem(self, o: u128) -> (u128, u128) {
        widths::div_rem_unsigned(self, o)
    }

    #[inline]
    fn to_i128(self) -> Option<i128> {
        cast(self)
    }

    #[inline]
    fn to_u128(self) -> Option<u128> {
        cast(self)
    }

    #[inline]
    fn from_i128(n: i128) -> Option<u128> {
        cast(n)
    }

    #[inline]
    fn from_u128(n: u128) -> Option<u128> {
        cast(n)
    }

    #[inline]
    fn half_base() -> Option<u128> {
        Some(1 << (u128::BITS / 2))
    }

    #[inline]
    fn exact_sum(_a: u128, _b: u128, _c: u128, _d: u128) -> Option<(u128, u128)> {
        None
    }

    #[inline]
    fn exact_diff(_a: u128, _b: u128, _c: u128, _d: u128) -> Option<(u128, u128)> {
        None
    }

    #[inline]
    fn is_zero(self) -> bool {
        self == 0
    }

    #[inline]
    fn is_one(self) -> bool {
        self == 1
    }

    #[inline]
    fn try_plus(self, o: u128) -> Option<u128> {
        self.checked_add(o)
    }

    #[inline]
    fn try_minus(self, o: u128) -> Option<u128> {
        self.checked_sub(o)
    }

    #[inline]
    fn halves(self, _base: u128) -> (u128, u128) {
        let half = u128::BITS / 2;
        (self.div_euclid(1 << half), self.rem_euclid(1 << half))
    }

    #[inline]
    fn gcd(self, o: u128) -> u128 {
        binary_gcd_wide(self, o)
    }

    #[inline]
    fn gcds(a: u128, b: u128, c: u128, d: u128) -> (u128, u128) {
        binary_gcds_wide(a, b, c, d)
    }
}

impl Primitive for u128 {
    const BITS: u32 = 128;
}

impl Integer for usize {
    const ZERO: usize = 0;

    const ONE: usize = 1;

    const MIN: usize = usize::MIN;

    const MAX: usize = usize::MAX;

    const EXACT_SUMS: bool = false;

    const EXACT_REMAINDERS: bool = true;

    #[inline]
    fn plus(self, o: usize) -> usize {
        self + o
    }

    #[inline]
    fn minus(self, o: usize) -> usize {
        self - o
    }

    #[inline]
    fn times(self, o: usize) -> usize {
        self * o
    }

    #[inline]
    fn try_times(self, o: usize) -> Option<usize> {
        self.checked_mul(o)
    }

    #[inline]
    fn div_rem(self, o: usize) -> (usize, usize) {
        (self / o, self % o)
    }

    #[inline]
    fn to_i128(self) -> Option<i128> {
        cast(self)
    }

    #[inline]
    fn to_u128(self) -> Option<u128> {
        cast(self)
    }

    #[inline]
    fn from_i128(n: i128) -> Option<usize> {
        cast(n)
    }

    #[inline]
    fn from_u128(n: u128) -> Option<usize> {
        cast(n)
    }

    #[inline]
    fn half_base() -> Option<usize> {
        Some(1 << (usize::BITS / 2))
    }

    #[inline]
    fn exact_sum(_a: usize, _b: usize, _c: usize, _d: usize) -> Option<(usize, usize)> {
        None
    }

    #[inline]
    fn exact_diff(_a: usize, _b: usize, _c: usize, _d: usize) -> Option<(usize, usize)> {
        None
    }

    #[inline]
    fn is_zero(self) -> bool {
        self == 0
    }

    #[inline]
    fn is_one(self) -> bool {
        self == 1
    }

    #[inline]
    fn try_plus(self, o: usize) -> Option<usize> {
        self.checked_add(o)
    }

    #[inline]
    fn try_minus(self, o: usize) -> Option<usize> {
        self.checked_sub(o)
    }

    #[inline]
    fn halves(self, _base: usize) -> (usize, usize) {
        let half = usize::BITS / 2;
        (self.div_euclid(1 << half), self.rem_euclid(1 << half))
    }

    #[inline]
    fn gcd(self, o: usize) -> usize {
        binary_gcd(self as u64, o as u64) as usize
    }

    #[inline]
    fn gcds(a: usize, b: usize, c: usize, d: usize) -> (usize, usize) {
        let (left, right) = binary_gcds(a as u64, b as u64, c as u64, d as u64);
        (left as usize, right as usize)
    }
}

impl Primitive for usize {
    const BITS: u32 = 64;
}
