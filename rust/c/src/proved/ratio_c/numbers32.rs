// Erased from crates/ratio_c/src/numbers32.rt by rust/erase: not to be edited.
// Written by templates/write from templates/numbers.rt.txt: change that file, and write this one anew.
//! The structs of C with fractions of `i32`, and the exported calls over slices of them, such as `ratio_add_i32`.

use crate::proved::ratio_c::arithmetic::{Difference, Product, Quotient, Remainder, Sum};
use crate::proved::ratio_c::compare::{Comparison, Equality, Order, Truth};
use crate::proved::ratio_c::crossing::{
    Bounded, FlaggedBounds, OneFraction, Parted, PartedPair, Placed, Pointed, Raised, Reply, Ruled,
    RuledPair, TwoFractions,
};
use crate::proved::ratio_c::decimal::{DecimalTexts, Decimals};
use crate::proved::ratio_c::divisors::{CommonDivisor, CommonMultiple};
use crate::proved::ratio_c::each::each;
use crate::proved::ratio_c::floats::{Float, FromFloat, Rationalizing, ToFloat};
use crate::proved::ratio_c::hash::{Hash, Hashing, LowestHashing};
use crate::proved::ratio_c::near::{Between, ConvergentAt, Nearest};
use crate::proved::ratio_c::numbers64::Answer64;
use crate::proved::ratio_c::numbers128::Answer128;
use crate::proved::ratio_c::one_fraction::{
    Absolute, Casting, Ceiling, Floor, LowestTerms, Negation, Raising, RoundingToWhole, Truncation,
};
use crate::proved::ratio_c::printing::{Fields, Text, print};
use crate::proved::ratio_c::reading::{Fractions, Reading, Span, TypedTexts};
use crate::proved::ratio_c::rounded::{ProductTo, QuotientTo, RoundedProduct, RoundingTo};
use crate::proved::ratio_c::scaled::{Scaled, Scaling};

/// The room for a text: a slash, and two numbers of at most 11 bytes.
pub const ROOM: usize = 23;

/// The room for a decimal: a number of at most 11 bytes, a point and 38 digits.
pub const DECIMAL_ROOM: usize = 50;

/// A fraction as its two numbers.
#[repr(C)]
pub struct Fraction32 {
    pub numer: i32,
    pub denom: i32,
}

/// Two fractions.
#[repr(C)]
pub struct Pair32 {
    pub left: Fraction32,
    pub right: Fraction32,
}

/// Two fractions, and the rule by which their product is rounded.
#[repr(C)]
pub struct Factors32 {
    pub left: Fraction32,
    pub right: Fraction32,
    pub rule: u32,
}

/// A fraction and the exponent of its power.
#[repr(C)]
pub struct Power32 {
    pub base: Fraction32,
    pub exponent: i32,
}

/// A fraction and the greatest denominator of the nearest one.
#[repr(C)]
pub struct Bounded32 {
    pub value: Fraction32,
    pub most: i32,
}

/// A fraction and the place of one of its convergents.
#[repr(C)]
pub struct Place32 {
    pub value: Fraction32,
    pub place: u32,
}

/// The bounds of a fraction, and flags that say which of them is included, and which is open.
#[repr(C)]
pub struct Bounds32 {
    pub low: Fraction32,
    pub high: Fraction32,
    pub flags: u32,
}

/// A fraction, a number of parts of 1, and the rule by which it is rounded to a multiple of one part.
#[repr(C)]
pub struct Multiple32 {
    pub value: Fraction32,
    pub parts: i32,
    pub rule: u32,
}

/// Two fractions, a number of parts of 1, and the rule by which their product or quotient is rounded to a multiple of one
/// part.
#[repr(C)]
pub struct Operands32 {
    pub left: Fraction32,
    pub right: Fraction32,
    pub parts: i32,
    pub rule: u32,
}

/// A fraction, a number of decimal places, and the rule by which it is rounded to so many.
#[repr(C)]
pub struct Decimal32 {
    pub value: Fraction32,
    pub places: u32,
    pub rule: u32,
}

/// A fraction. If there is none, the code says why, and the value is 0 over 0.
#[repr(C)]
pub struct Answer32 {
    pub code: u32,
    pub value: Fraction32,
}

impl OneFraction for Fraction32 {
    type Inside = i32;

    #[inline(always)]
    fn fraction(&self) -> (i32, i32) {
        (self.numer, self.denom)
    }
}

impl OneFraction for Power32 {
    type Inside = i32;

    #[inline(always)]
    fn fraction(&self) -> (i32, i32) {
        (self.base.numer, self.base.denom)
    }
}

impl Raised for Power32 {
    #[inline(always)]
    fn exponent(&self) -> i32 {
        self.exponent
    }
}

impl OneFraction for Bounded32 {
    type Inside = i32;

    #[inline(always)]
    fn fraction(&self) -> (i32, i32) {
        (self.value.numer, self.value.denom)
    }
}

impl Bounded for Bounded32 {
    #[inline(always)]
    fn most(&self) -> i32 {
        self.most
    }
}

impl OneFraction for Place32 {
    type Inside = i32;

    #[inline(always)]
    fn fraction(&self) -> (i32, i32) {
        (self.value.numer, self.value.denom)
    }
}

impl Placed for Place32 {
    #[inline(always)]
    fn place(&self) -> u32 {
        self.place
    }
}

impl OneFraction for Multiple32 {
    type Inside = i32;

    #[inline(always)]
    fn fraction(&self) -> (i32, i32) {
        (self.value.numer, self.value.denom)
    }
}

impl Ruled for Multiple32 {
    #[inline(always)]
    fn rule(&self) -> u32 {
        self.rule
    }
}

impl Parted for Multiple32 {
    #[inline(always)]
    fn parts(&self) -> i32 {
        self.parts
    }
}

impl OneFraction for Decimal32 {
    type Inside = i32;

    #[inline(always)]
    fn fraction(&self) -> (i32, i32) {
        (self.value.numer, self.value.denom)
    }
}

impl Ruled for Decimal32 {
    #[inline(always)]
    fn rule(&self) -> u32 {
        self.rule
    }
}

impl Pointed for Decimal32 {
    #[inline(always)]
    fn places(&self) -> u32 {
        self.places
    }
}

impl TwoFractions for Bounds32 {
    type Inside = i32;

    #[inline(always)]
    fn left(&self) -> (i32, i32) {
        (self.low.numer, self.low.denom)
    }

    #[inline(always)]
    fn right(&self) -> (i32, i32) {
        (self.high.numer, self.high.denom)
    }
}

impl FlaggedBounds for Bounds32 {
    #[inline(always)]
    fn flags(&self) -> u32 {
        self.flags
    }
}

impl TwoFractions for Pair32 {
    type Inside = i32;

    #[inline(always)]
    fn left(&self) -> (i32, i32) {
        (self.left.numer, self.left.denom)
    }

    #[inline(always)]
    fn right(&self) -> (i32, i32) {
        (self.right.numer, self.right.denom)
    }
}

impl TwoFractions for Factors32 {
    type Inside = i32;

    #[inline(always)]
    fn left(&self) -> (i32, i32) {
        (self.left.numer, self.left.denom)
    }

    #[inline(always)]
    fn right(&self) -> (i32, i32) {
        (self.right.numer, self.right.denom)
    }
}

impl RuledPair for Factors32 {
    #[inline(always)]
    fn rule(&self) -> u32 {
        self.rule
    }
}

impl TwoFractions for Operands32 {
    type Inside = i32;

    #[inline(always)]
    fn left(&self) -> (i32, i32) {
        (self.left.numer, self.left.denom)
    }

    #[inline(always)]
    fn right(&self) -> (i32, i32) {
        (self.right.numer, self.right.denom)
    }
}

impl RuledPair for Operands32 {
    #[inline(always)]
    fn rule(&self) -> u32 {
        self.rule
    }
}

impl PartedPair for Operands32 {
    #[inline(always)]
    fn parts(&self) -> i32 {
        self.parts
    }
}

impl Reply<i32> for Answer32 {
    #[inline(always)]
    fn reply(code: u32, numer: i32, denom: i32) -> Answer32 {
        let value = Fraction32 { numer, denom };
        Answer32 { code, value }
    }
}

/// The order of each pair, by value.
#[no_mangle]
pub unsafe extern "C" fn ratio_compare_i32(asked: *const Pair32, asked_len: usize, answers: *mut Order, answers_len: usize) -> u32 {
    // SAFETY: the header says what the caller owes for each pointer and its length.
    let asked = crate::items(asked, asked_len);
    let answers = crate::items_mut(answers, answers_len);
    each(&Comparison, asked, answers)
}

/// Whether the fractions of each pair have the same value.
#[no_mangle]
pub unsafe extern "C" fn ratio_equal_i32(asked: *const Pair32, asked_len: usize, answers: *mut Truth, answers_len: usize) -> u32 {
    // SAFETY: the header says what the caller owes for each pointer and its length.
    let asked = crate::items(asked, asked_len);
    let answers = crate::items_mut(answers, answers_len);
    each(&Equality, asked, answers)
}

/// The hash of each fraction.
#[no_mangle]
pub unsafe extern "C" fn ratio_hash_i32(asked: *const Fraction32, asked_len: usize, answers: *mut Hash, answers_len: usize) -> u32 {
    // SAFETY: the header says what the caller owes for each pointer and its length.
    let asked = crate::items(asked, asked_len);
    let answers = crate::items_mut(answers, answers_len);
    each(&Hashing, asked, answers)
}

/// The sum of each pair.
#[no_mangle]
pub unsafe extern "C" fn ratio_add_i32(asked: *const Pair32, asked_len: usize, answers: *mut Answer32, answers_len: usize) -> u32 {
    // SAFETY: the header says what the caller owes for each pointer and its length.
    let asked = crate::items(asked, asked_len);
    let answers = crate::items_mut(answers, answers_len);
    each(&Sum, asked, answers)
}

/// The difference of each pair.
#[no_mangle]
pub unsafe extern "C" fn ratio_sub_i32(asked: *const Pair32, asked_len: usize, answers: *mut Answer32, answers_len: usize) -> u32 {
    // SAFETY: the header says what the caller owes for each pointer and its length.
    let asked = crate::items(asked, asked_len);
    let answers = crate::items_mut(answers, answers_len);
    each(&Difference, asked, answers)
}

/// The product of each pair.
#[no_mangle]
pub unsafe extern "C" fn ratio_mul_i32(asked: *const Pair32, asked_len: usize, answers: *mut Answer32, answers_len: usize) -> u32 {
    // SAFETY: the header says what the caller owes for each pointer and its length.
    let asked = crate::items(asked, asked_len);
    let answers = crate::items_mut(answers, answers_len);
    each(&Product, asked, answers)
}

/// The quotient of each pair.
#[no_mangle]
pub unsafe extern "C" fn ratio_div_i32(asked: *const Pair32, asked_len: usize, answers: *mut Answer32, answers_len: usize) -> u32 {
    // SAFETY: the header says what the caller owes for each pointer and its length.
    let asked = crate::items(asked, asked_len);
    let answers = crate::items_mut(answers, answers_len);
    each(&Quotient, asked, answers)
}

/// The remainder of each pair.
#[no_mangle]
pub unsafe extern "C" fn ratio_rem_i32(asked: *const Pair32, asked_len: usize, answers: *mut Answer32, answers_len: usize) -> u32 {
    // SAFETY: the header says what the caller owes for each pointer and its length.
    let asked = crate::items(asked, asked_len);
    let answers = crate::items_mut(answers, answers_len);
    each(&Remainder, asked, answers)
}

/// The greatest fraction that divides both of each pair.
#[no_mangle]
pub unsafe extern "C" fn ratio_gcd_i32(asked: *const Pair32, asked_len: usize, answers: *mut Answer32, answers_len: usize) -> u32 {
    // SAFETY: the header says what the caller owes for each pointer and its length.
    let asked = crate::items(asked, asked_len);
    let answers = crate::items_mut(answers, answers_len);
    each(&CommonDivisor, asked, answers)
}

/// The least fraction above 0 that both of each pair divide.
#[no_mangle]
pub unsafe extern "C" fn ratio_lcm_i32(asked: *const Pair32, asked_len: usize, answers: *mut Answer32, answers_len: usize) -> u32 {
    // SAFETY: the header says what the caller owes for each pointer and its length.
    let asked = crate::items(asked, asked_len);
    let answers = crate::items_mut(answers, answers_len);
    each(&CommonMultiple, asked, answers)
}

/// The product of each pair, rounded by a rule, over 1.
#[no_mangle]
pub unsafe extern "C" fn ratio_mul_round_i32(asked: *const Factors32, asked_len: usize, answers: *mut Answer32, answers_len: usize) -> u32 {
    // SAFETY: the header says what the caller owes for each pointer and its length.
    let asked = crate::items(asked, asked_len);
    let answers = crate::items_mut(answers, answers_len);
    each(&RoundedProduct, asked, answers)
}

/// The product of each pair, rounded by a rule to a multiple of 1/parts.
#[no_mangle]
pub unsafe extern "C" fn ratio_mul_round_to_i32(asked: *const Operands32, asked_len: usize, answers: *mut Answer32, answers_len: usize) -> u32 {
    // SAFETY: the header says what the caller owes for each pointer and its length.
    let asked = crate::items(asked, asked_len);
    let answers = crate::items_mut(answers, answers_len);
    each(&ProductTo, asked, answers)
}

/// The quotient of each pair, rounded in the same way.
#[no_mangle]
pub unsafe extern "C" fn ratio_div_round_to_i32(asked: *const Operands32, asked_len: usize, answers: *mut Answer32, answers_len: usize) -> u32 {
    // SAFETY: the header says what the caller owes for each pointer and its length.
    let asked = crate::items(asked, asked_len);
    let answers = crate::items_mut(answers, answers_len);
    each(&QuotientTo, asked, answers)
}

/// The lowest terms of each fraction.
#[no_mangle]
pub unsafe extern "C" fn ratio_reduce_i32(asked: *const Fraction32, asked_len: usize, answers: *mut Answer32, answers_len: usize) -> u32 {
    // SAFETY: the header says what the caller owes for each pointer and its length.
    let asked = crate::items(asked, asked_len);
    let answers = crate::items_mut(answers, answers_len);
    each(&LowestTerms, asked, answers)
}

/// The negative of each fraction, not reduced.
#[no_mangle]
pub unsafe extern "C" fn ratio_neg_i32(asked: *const Fraction32, asked_len: usize, answers: *mut Answer32, answers_len: usize) -> u32 {
    // SAFETY: the header says what the caller owes for each pointer and its length.
    let asked = crate::items(asked, asked_len);
    let answers = crate::items_mut(answers, answers_len);
    each(&Negation, asked, answers)
}

/// The absolute value of each fraction, not reduced.
#[no_mangle]
pub unsafe extern "C" fn ratio_abs_i32(asked: *const Fraction32, asked_len: usize, answers: *mut Answer32, answers_len: usize) -> u32 {
    // SAFETY: the header says what the caller owes for each pointer and its length.
    let asked = crate::items(asked, asked_len);
    let answers = crate::items_mut(answers, answers_len);
    each(&Absolute, asked, answers)
}

/// The floor of each fraction, over 1.
#[no_mangle]
pub unsafe extern "C" fn ratio_floor_i32(asked: *const Fraction32, asked_len: usize, answers: *mut Answer32, answers_len: usize) -> u32 {
    // SAFETY: the header says what the caller owes for each pointer and its length.
    let asked = crate::items(asked, asked_len);
    let answers = crate::items_mut(answers, answers_len);
    each(&Floor, asked, answers)
}

/// The ceiling of each fraction, over 1.
#[no_mangle]
pub unsafe extern "C" fn ratio_ceil_i32(asked: *const Fraction32, asked_len: usize, answers: *mut Answer32, answers_len: usize) -> u32 {
    // SAFETY: the header says what the caller owes for each pointer and its length.
    let asked = crate::items(asked, asked_len);
    let answers = crate::items_mut(answers, answers_len);
    each(&Ceiling, asked, answers)
}

/// Each fraction cut towards zero, over 1.
#[no_mangle]
pub unsafe extern "C" fn ratio_trunc_i32(asked: *const Fraction32, asked_len: usize, answers: *mut Answer32, answers_len: usize) -> u32 {
    // SAFETY: the header says what the caller owes for each pointer and its length.
    let asked = crate::items(asked, asked_len);
    let answers = crate::items_mut(answers, answers_len);
    each(&Truncation, asked, answers)
}

/// Each fraction rounded, a half away from zero.
#[no_mangle]
pub unsafe extern "C" fn ratio_round_i32(asked: *const Fraction32, asked_len: usize, answers: *mut Answer32, answers_len: usize) -> u32 {
    // SAFETY: the header says what the caller owes for each pointer and its length.
    let asked = crate::items(asked, asked_len);
    let answers = crate::items_mut(answers, answers_len);
    each(&RoundingToWhole, asked, answers)
}

/// The power of each fraction, not reduced.
#[no_mangle]
pub unsafe extern "C" fn ratio_pow_i32(asked: *const Power32, asked_len: usize, answers: *mut Answer32, answers_len: usize) -> u32 {
    // SAFETY: the header says what the caller owes for each pointer and its length.
    let asked = crate::items(asked, asked_len);
    let answers = crate::items_mut(answers, answers_len);
    each(&Raising, asked, answers)
}

/// The nearest fraction with a denominator from 1 to the bound.
#[no_mangle]
pub unsafe extern "C" fn ratio_nearest_i32(asked: *const Bounded32, asked_len: usize, answers: *mut Answer32, answers_len: usize) -> u32 {
    // SAFETY: the header says what the caller owes for each pointer and its length.
    let asked = crate::items(asked, asked_len);
    let answers = crate::items_mut(answers, answers_len);
    each(&Nearest, asked, answers)
}

/// The simplest fraction within the bounds.
#[no_mangle]
pub unsafe extern "C" fn ratio_between_i32(asked: *const Bounds32, asked_len: usize, answers: *mut Answer32, answers_len: usize) -> u32 {
    // SAFETY: the header says what the caller owes for each pointer and its length.
    let asked = crate::items(asked, asked_len);
    let answers = crate::items_mut(answers, answers_len);
    each(&Between, asked, answers)
}

/// The multiple of 1/parts that the rule says.
#[no_mangle]
pub unsafe extern "C" fn ratio_round_to_i32(asked: *const Multiple32, asked_len: usize, answers: *mut Answer32, answers_len: usize) -> u32 {
    // SAFETY: the header says what the caller owes for each pointer and its length.
    let asked = crate::items(asked, asked_len);
    let answers = crate::items_mut(answers, answers_len);
    each(&RoundingTo, asked, answers)
}

/// The lowest terms of each number by 10^scale.
#[no_mangle]
pub unsafe extern "C" fn ratio_from_scaled_i32(asked: *const Scaled, asked_len: usize, answers: *mut Answer32, answers_len: usize) -> u32 {
    // SAFETY: the header says what the caller owes for each pointer and its length.
    let asked = crate::items(asked, asked_len);
    let answers = crate::items_mut(answers, answers_len);
    each(&Scaling::<i32>::new(), asked, answers)
}

/// The convergent of each fraction at its place, from 0 on.
#[no_mangle]
pub unsafe extern "C" fn ratio_convergent_i32(asked: *const Place32, asked_len: usize, answers: *mut Answer32, answers_len: usize) -> u32 {
    // SAFETY: the header says what the caller owes for each pointer and its length.
    let asked = crate::items(asked, asked_len);
    let answers = crate::items_mut(answers, answers_len);
    each(&ConvergentAt, asked, answers)
}

/// The lowest terms of exactly the value of each float.
#[no_mangle]
pub unsafe extern "C" fn ratio_from_f64_i32(asked: *const f64, asked_len: usize, answers: *mut Answer32, answers_len: usize) -> u32 {
    // SAFETY: the header says what the caller owes for each pointer and its length.
    let asked = crate::items(asked, asked_len);
    let answers = crate::items_mut(answers, answers_len);
    each(&FromFloat::<i32>::new(), asked, answers)
}

/// The simplest fraction that rounds to each float.
#[no_mangle]
pub unsafe extern "C" fn ratio_rationalize_i32(asked: *const f64, asked_len: usize, answers: *mut Answer32, answers_len: usize) -> u32 {
    // SAFETY: the header says what the caller owes for each pointer and its length.
    let asked = crate::items(asked, asked_len);
    let answers = crate::items_mut(answers, answers_len);
    each(&Rationalizing::<i32>::new(), asked, answers)
}

/// The float nearest to each fraction.
#[no_mangle]
pub unsafe extern "C" fn ratio_to_f64_i32(asked: *const Fraction32, asked_len: usize, answers: *mut Float, answers_len: usize) -> u32 {
    // SAFETY: the header says what the caller owes for each pointer and its length.
    let asked = crate::items(asked, asked_len);
    let answers = crate::items_mut(answers, answers_len);
    each(&ToFloat, asked, answers)
}

/// The hash of each fraction in lowest terms.
#[no_mangle]
pub unsafe extern "C" fn ratio_hash_lowest_i32(asked: *const Fraction32, asked_len: usize, answers: *mut Hash, answers_len: usize) -> u32 {
    // SAFETY: the header says what the caller owes for each pointer and its length.
    let asked = crate::items(asked, asked_len);
    let answers = crate::items_mut(answers, answers_len);
    each(&LowestHashing, asked, answers)
}

/// Each fraction over `i64`, not reduced.
#[no_mangle]
pub unsafe extern "C" fn ratio_cast_i32_to_i64(asked: *const Fraction32, asked_len: usize, answers: *mut Answer64, answers_len: usize) -> u32 {
    // SAFETY: the header says what the caller owes for each pointer and its length.
    let asked = crate::items(asked, asked_len);
    let answers = crate::items_mut(answers, answers_len);
    each(&Casting::<i64>::new(), asked, answers)
}

/// Each fraction over `i128`, not reduced.
#[no_mangle]
pub unsafe extern "C" fn ratio_cast_i32_to_i128(asked: *const Fraction32, asked_len: usize, answers: *mut Answer128, answers_len: usize) -> u32 {
    // SAFETY: the header says what the caller owes for each pointer and its length.
    let asked = crate::items(asked, asked_len);
    let answers = crate::items_mut(answers, answers_len);
    each(&Casting::<i128>::new(), asked, answers)
}

/// The fraction of each text in `texts`. The spans name the texts.
#[no_mangle]
pub unsafe extern "C" fn ratio_read_i32(texts: *const u8, texts_len: usize, spans: *const Span, spans_len: usize, answers: *mut Answer32, answers_len: usize) -> u32 {
    // SAFETY: the header says what the caller owes for each pointer and its length.
    let texts = crate::items(texts, texts_len);
    let spans = crate::items(spans, spans_len);
    let answers = crate::items_mut(answers, answers_len);
    let reader = Fractions::<i32>::new();
    each(&Reading { texts, reader }, spans, answers)
}

/// The fraction of each decimal in `texts`, such as `-1.5e-3`, which the spans name.
#[no_mangle]
pub unsafe extern "C" fn ratio_read_decimal_i32(texts: *const u8, texts_len: usize, spans: *const Span, spans_len: usize, answers: *mut Answer32, answers_len: usize) -> u32 {
    // SAFETY: the header says what the caller owes for each pointer and its length.
    let texts = crate::items(texts, texts_len);
    let spans = crate::items(spans, spans_len);
    let answers = crate::items_mut(answers, answers_len);
    let reader = DecimalTexts::<i32>::new();
    each(&Reading { texts, reader }, spans, answers)
}

/// The fraction of each text that a person typed, such as `-1 1/2` and `12.5%`. The spans name the texts.
#[no_mangle]
pub unsafe extern "C" fn ratio_read_text_i32(texts: *const u8, texts_len: usize, spans: *const Span, spans_len: usize, answers: *mut Answer32, answers_len: usize) -> u32 {
    // SAFETY: the header says what the caller owes for each pointer and its length.
    let texts = crate::items(texts, texts_len);
    let spans = crate::items(spans, spans_len);
    let answers = crate::items_mut(answers, answers_len);
    let reader = TypedTexts::<i32>::new();
    each(&Reading { texts, reader }, spans, answers)
}

/// The text of each fraction, not reduced, one after another in `texts`, which has `ROOM` bytes for each.
#[no_mangle]
pub unsafe extern "C" fn ratio_print_i32(asked: *const Fraction32, asked_len: usize, texts: *mut u8, texts_len: usize, answers: *mut Text, answers_len: usize) -> u32 {
    // SAFETY: the header says what the caller owes for each pointer and its length.
    let asked = crate::items(asked, asked_len);
    let texts = crate::items_mut(texts, texts_len);
    let answers = crate::items_mut(answers, answers_len);
    print(&Fields, asked, ROOM, texts, answers)
}

/// The text of each fraction as a decimal, one after another in `texts`, which has `DECIMAL_ROOM` bytes for each.
#[no_mangle]
pub unsafe extern "C" fn ratio_print_decimal_i32(asked: *const Decimal32, asked_len: usize, texts: *mut u8, texts_len: usize, answers: *mut Text, answers_len: usize) -> u32 {
    // SAFETY: the header says what the caller owes for each pointer and its length.
    let asked = crate::items(asked, asked_len);
    let texts = crate::items_mut(texts, texts_len);
    let answers = crate::items_mut(answers, answers_len);
    print(&Decimals, asked, DECIMAL_ROOM, texts, answers)
}
