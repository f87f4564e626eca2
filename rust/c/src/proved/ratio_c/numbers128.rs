// Erased from crates/ratio_c/src/numbers128.rt by rust/erase: not to be edited.
// Written by templates/write from templates/numbers.rt.txt: change that file, and write this one anew.
//! The structs of C with fractions of `i128`, and the exported calls over slices of them, such as `ratio_add_i128`.

use crate::proved::ratio_c::arithmetic::{Difference, Product, Quotient, Remainder, Sum};
use crate::proved::ratio_c::compare::{Comparison, Equality, Order, Truth};
use crate::proved::ratio_c::crossing::{
    Bounded, FlaggedBounds, OneFraction, Parted, PartedPair, Placed, Pointed, Raised, Reply, Ruled,
    RuledPair, TwoFractions,
};
use crate::proved::ratio_c::decimal::{DecimalTexts, Decimals};
use crate::proved::ratio_c::divisors::{CommonDivisor, CommonMultiple};
use crate::proved::ratio_c::each::each;
use crate::proved::ratio_c::floats::{Float, FromFloat, Rationalizing, ToFloat};
use crate::proved::ratio_c::hash::{Hash, Hashing};
use crate::proved::ratio_c::near::{Between, ConvergentAt, Nearest};
use crate::proved::ratio_c::numbers32::Answer32;
use crate::proved::ratio_c::numbers64::Answer64;
use crate::proved::ratio_c::one_fraction::{
    Absolute, Casting, Ceiling, Floor, LowestTerms, Negation, Raising, RoundingToWhole, Truncation,
};
use crate::proved::ratio_c::printing::{Fields, Text, print};
use crate::proved::ratio_c::reading::{Fractions, Reading, Span, TypedTexts};
use crate::proved::ratio_c::rounded::{ProductTo, QuotientTo, RoundedProduct, RoundingTo};
use crate::proved::ratio_c::scaled::{Scaled, Scaling};
use crate::proved::ratio_c::wide::Wide;

/// The room for a text: a slash, and two numbers of at most 40 bytes.
pub const ROOM: usize = 81;

/// The room for a decimal: a number of at most 40 bytes, a point and 38 digits.
pub const DECIMAL_ROOM: usize = 79;

/// A fraction as its two numbers.
#[repr(C)]
pub struct Fraction128 {
    pub numer: Wide,
    pub denom: Wide,
}

/// Two fractions.
#[repr(C)]
pub struct Pair128 {
    pub left: Fraction128,
    pub right: Fraction128,
}

/// Two fractions, and the rule by which their product is rounded.
#[repr(C)]
pub struct Factors128 {
    pub left: Fraction128,
    pub right: Fraction128,
    pub rule: u32,
}

/// A fraction and the exponent of its power.
#[repr(C)]
pub struct Power128 {
    pub base: Fraction128,
    pub exponent: i32,
}

/// A fraction and the greatest denominator of the nearest one.
#[repr(C)]
pub struct Bounded128 {
    pub value: Fraction128,
    pub most: Wide,
}

/// A fraction and the place of one of its convergents.
#[repr(C)]
pub struct Place128 {
    pub value: Fraction128,
    pub place: u32,
}

/// The bounds of a fraction, and flags that say which of them is included, and which is open.
#[repr(C)]
pub struct Bounds128 {
    pub low: Fraction128,
    pub high: Fraction128,
    pub flags: u32,
}

/// A fraction, a number of parts of 1, and the rule by which it is rounded to a multiple of one part.
#[repr(C)]
pub struct Multiple128 {
    pub value: Fraction128,
    pub parts: Wide,
    pub rule: u32,
}

/// Two fractions, a number of parts of 1, and the rule by which their product or quotient is rounded to a multiple of one
/// part.
#[repr(C)]
pub struct Operands128 {
    pub left: Fraction128,
    pub right: Fraction128,
    pub parts: Wide,
    pub rule: u32,
}

/// A fraction, a number of decimal places, and the rule by which it is rounded to so many.
#[repr(C)]
pub struct Decimal128 {
    pub value: Fraction128,
    pub places: u32,
    pub rule: u32,
}

/// A fraction. If there is none, the code says why, and the value is 0 over 0.
#[repr(C)]
pub struct Answer128 {
    pub code: u32,
    pub value: Fraction128,
}

impl OneFraction for Fraction128 {
    type Inside = i128;

    #[inline(always)]
    fn fraction(&self) -> (i128, i128) {
        (self.numer.number(), self.denom.number())
    }
}

impl OneFraction for Power128 {
    type Inside = i128;

    #[inline(always)]
    fn fraction(&self) -> (i128, i128) {
        (self.base.numer.number(), self.base.denom.number())
    }
}

impl Raised for Power128 {
    #[inline(always)]
    fn exponent(&self) -> i32 {
        self.exponent
    }
}

impl OneFraction for Bounded128 {
    type Inside = i128;

    #[inline(always)]
    fn fraction(&self) -> (i128, i128) {
        (self.value.numer.number(), self.value.denom.number())
    }
}

impl Bounded for Bounded128 {
    #[inline(always)]
    fn most(&self) -> i128 {
        self.most.number()
    }
}

impl OneFraction for Place128 {
    type Inside = i128;

    #[inline(always)]
    fn fraction(&self) -> (i128, i128) {
        (self.value.numer.number(), self.value.denom.number())
    }
}

impl Placed for Place128 {
    #[inline(always)]
    fn place(&self) -> u32 {
        self.place
    }
}

impl OneFraction for Multiple128 {
    type Inside = i128;

    #[inline(always)]
    fn fraction(&self) -> (i128, i128) {
        (self.value.numer.number(), self.value.denom.number())
    }
}

impl Ruled for Multiple128 {
    #[inline(always)]
    fn rule(&self) -> u32 {
        self.rule
    }
}

impl Parted for Multiple128 {
    #[inline(always)]
    fn parts(&self) -> i128 {
        self.parts.number()
    }
}

impl OneFraction for Decimal128 {
    type Inside = i128;

    #[inline(always)]
    fn fraction(&self) -> (i128, i128) {
        (self.value.numer.number(), self.value.denom.number())
    }
}

impl Ruled for Decimal128 {
    #[inline(always)]
    fn rule(&self) -> u32 {
        self.rule
    }
}

impl Pointed for Decimal128 {
    #[inline(always)]
    fn places(&self) -> u32 {
        self.places
    }
}

impl TwoFractions for Bounds128 {
    type Inside = i128;

    #[inline(always)]
    fn left(&self) -> (i128, i128) {
        (self.low.numer.number(), self.low.denom.number())
    }

    #[inline(always)]
    fn right(&self) -> (i128, i128) {
        (self.high.numer.number(), self.high.denom.number())
    }
}

impl FlaggedBounds for Bounds128 {
    #[inline(always)]
    fn flags(&self) -> u32 {
        self.flags
    }
}

impl TwoFractions for Pair128 {
    type Inside = i128;

    #[inline(always)]
    fn left(&self) -> (i128, i128) {
        (self.left.numer.number(), self.left.denom.number())
    }

    #[inline(always)]
    fn right(&self) -> (i128, i128) {
        (self.right.numer.number(), self.right.denom.number())
    }
}

impl TwoFractions for Factors128 {
    type Inside = i128;

    #[inline(always)]
    fn left(&self) -> (i128, i128) {
        (self.left.numer.number(), self.left.denom.number())
    }

    #[inline(always)]
    fn right(&self) -> (i128, i128) {
        (self.right.numer.number(), self.right.denom.number())
    }
}

impl RuledPair for Factors128 {
    #[inline(always)]
    fn rule(&self) -> u32 {
        self.rule
    }
}

impl TwoFractions for Operands128 {
    type Inside = i128;

    #[inline(always)]
    fn left(&self) -> (i128, i128) {
        (self.left.numer.number(), self.left.denom.number())
    }

    #[inline(always)]
    fn right(&self) -> (i128, i128) {
        (self.right.numer.number(), self.right.denom.number())
    }
}

impl RuledPair for Operands128 {
    #[inline(always)]
    fn rule(&self) -> u32 {
        self.rule
    }
}

impl PartedPair for Operands128 {
    #[inline(always)]
    fn parts(&self) -> i128 {
        self.parts.number()
    }
}

impl Reply<i128> for Answer128 {
    #[inline(always)]
    fn reply(code: u32, numer: i128, denom: i128) -> Answer128 {
        let value = Fraction128 {
            numer: Wide::of(numer),
            denom: Wide::of(denom),
        };
        Answer128 { code, value }
    }
}

/// The order of each pair, by value.
#[no_mangle]
pub unsafe extern "C" fn ratio_compare_i128(asked: *const Pair128, asked_len: usize, answers: *mut Order, answers_len: usize) -> u32 {
    // SAFETY: the header says what the caller owes for each pointer and its length.
    let asked = crate::items(asked, asked_len);
    let answers = crate::items_mut(answers, answers_len);
    each(&Comparison, asked, answers)
}

/// Whether the fractions of each pair have the same value.
#[no_mangle]
pub unsafe extern "C" fn ratio_equal_i128(asked: *const Pair128, asked_len: usize, answers: *mut Truth, answers_len: usize) -> u32 {
    // SAFETY: the header says what the caller owes for each pointer and its length.
    let asked = crate::items(asked, asked_len);
    let answers = crate::items_mut(answers, answers_len);
    each(&Equality, asked, answers)
}

/// The hash of each fraction.
#[no_mangle]
pub unsafe extern "C" fn ratio_hash_i128(asked: *const Fraction128, asked_len: usize, answers: *mut Hash, answers_len: usize) -> u32 {
    // SAFETY: the header says what the caller owes for each pointer and its length.
    let asked = crate::items(asked, asked_len);
    let answers = crate::items_mut(answers, answers_len);
    each(&Hashing, asked, answers)
}

/// The sum of each pair.
#[no_mangle]
pub unsafe extern "C" fn ratio_add_i128(asked: *const Pair128, asked_len: usize, answers: *mut Answer128, answers_len: usize) -> u32 {
    // SAFETY: the header says what the caller owes for each pointer and its length.
    let asked = crate::items(asked, asked_len);
    let answers = crate::items_mut(answers, answers_len);
    each(&Sum, asked, answers)
}

/// The difference of each pair.
#[no_mangle]
pub unsafe extern "C" fn ratio_sub_i128(asked: *const Pair128, asked_len: usize, answers: *mut Answer128, answers_len: usize) -> u32 {
    // SAFETY: the header says what the caller owes for each pointer and its length.
    let asked = crate::items(asked, asked_len);
    let answers = crate::items_mut(answers, answers_len);
    each(&Difference, asked, answers)
}

/// The product of each pair.
#[no_mangle]
pub unsafe extern "C" fn ratio_mul_i128(asked: *const Pair128, asked_len: usize, answers: *mut Answer128, answers_len: usize) -> u32 {
    // SAFETY: the header says what the caller owes for each pointer and its length.
    let asked = crate::items(asked, asked_len);
    let answers = crate::items_mut(answers, answers_len);
    each(&Product, asked, answers)
}

/// The quotient of each pair.
#[no_mangle]
pub unsafe extern "C" fn ratio_div_i128(asked: *const Pair128, asked_len: usize, answers: *mut Answer128, answers_len: usize) -> u32 {
    // SAFETY: the header says what the caller owes for each pointer and its length.
    let asked = crate::items(asked, asked_len);
    let answers = crate::items_mut(answers, answers_len);
    each(&Quotient, asked, answers)
}

/// The remainder of each pair.
#[no_mangle]
pub unsafe extern "C" fn ratio_rem_i128(asked: *const Pair128, asked_len: usize, answers: *mut Answer128, answers_len: usize) -> u32 {
    // SAFETY: the header says what the caller owes for each pointer and its length.
    let asked = crate::items(asked, asked_len);
    let answers = crate::items_mut(answers, answers_len);
    each(&Remainder, asked, answers)
}

/// The greatest fraction that divides both of each pair.
#[no_mangle]
pub unsafe extern "C" fn ratio_gcd_i128(asked: *const Pair128, asked_len: usize, answers: *mut Answer128, answers_len: usize) -> u32 {
    // SAFETY: the header says what the caller owes for each pointer and its length.
    let asked = crate::items(asked, asked_len);
    let answers = crate::items_mut(answers, answers_len);
    each(&CommonDivisor, asked, answers)
}

/// The least fraction above 0 that both of each pair divide.
#[no_mangle]
pub unsafe extern "C" fn ratio_lcm_i128(asked: *const Pair128, asked_len: usize, answers: *mut Answer128, answers_len: usize) -> u32 {
    // SAFETY: the header says what the caller owes for each pointer and its length.
    let asked = crate::items(asked, asked_len);
    let answers = crate::items_mut(answers, answers_len);
    each(&CommonMultiple, asked, answers)
}

/// The product of each pair, rounded by a rule, over 1.
#[no_mangle]
pub unsafe extern "C" fn ratio_mul_round_i128(asked: *const Factors128, asked_len: usize, answers: *mut Answer128, answers_len: usize) -> u32 {
    // SAFETY: the header says what the caller owes for each pointer and its length.
    let asked = crate::items(asked, asked_len);
    let answers = crate::items_mut(answers, answers_len);
    each(&RoundedProduct, asked, answers)
}

/// The product of each pair, rounded by a rule to a multiple of 1/parts.
#[no_mangle]
pub unsafe extern "C" fn ratio_mul_round_to_i128(asked: *const Operands128, asked_len: usize, answers: *mut Answer128, answers_len: usize) -> u32 {
    // SAFETY: the header says what the caller owes for each pointer and its length.
    let asked = crate::items(asked, asked_len);
    let answers = crate::items_mut(answers, answers_len);
    each(&ProductTo, asked, answers)
}

/// The quotient of each pair, rounded in the same way.
#[no_mangle]
pub unsafe extern "C" fn ratio_div_round_to_i128(asked: *const Operands128, asked_len: usize, answers: *mut Answer128, answers_len: usize) -> u32 {
    // SAFETY: the header says what the caller owes for each pointer and its length.
    let asked = crate::items(asked, asked_len);
    let answers = crate::items_mut(answers, answers_len);
    each(&QuotientTo, asked, answers)
}

/// The lowest terms of each fraction.
#[no_mangle]
pub unsafe extern "C" fn ratio_reduce_i128(asked: *const Fraction128, asked_len: usize, answers: *mut Answer128, answers_len: usize) -> u32 {
    // SAFETY: the header says what the caller owes for each pointer and its length.
    let asked = crate::items(asked, asked_len);
    let answers = crate::items_mut(answers, answers_len);
    each(&LowestTerms, asked, answers)
}

/// The negative of each fraction, not reduced.
#[no_mangle]
pub unsafe extern "C" fn ratio_neg_i128(asked: *const Fraction128, asked_len: usize, answers: *mut Answer128, answers_len: usize) -> u32 {
    // SAFETY: the header says what the caller owes for each pointer and its length.
    let asked = crate::items(asked, asked_len);
    let answers = crate::items_mut(answers, answers_len);
    each(&Negation, asked, answers)
}

/// The absolute value of each fraction, not reduced.
#[no_mangle]
pub unsafe extern "C" fn ratio_abs_i128(asked: *const Fraction128, asked_len: usize, answers: *mut Answer128, answers_len: usize) -> u32 {
    // SAFETY: the header says what the caller owes for each pointer and its length.
    let asked = crate::items(asked, asked_len);
    let answers = crate::items_mut(answers, answers_len);
    each(&Absolute, asked, answers)
}

/// The floor of each fraction, over 1.
#[no_mangle]
pub unsafe extern "C" fn ratio_floor_i128(asked: *const Fraction128, asked_len: usize, answers: *mut Answer128, answers_len: usize) -> u32 {
    // SAFETY: the header says what the caller owes for each pointer and its length.
    let asked = crate::items(asked, asked_len);
    let answers = crate::items_mut(answers, answers_len);
    each(&Floor, asked, answers)
}

/// The ceiling of each fraction, over 1.
#[no_mangle]
pub unsafe extern "C" fn ratio_ceil_i128(asked: *const Fraction128, asked_len: usize, answers: *mut Answer128, answers_len: usize) -> u32 {
    // SAFETY: the header says what the caller owes for each pointer and its length.
    let asked = crate::items(asked, asked_len);
    let answers = crate::items_mut(answers, answers_len);
    each(&Ceiling, asked, answers)
}

/// Each fraction cut towards zero, over 1.
#[no_mangle]
pub unsafe extern "C" fn ratio_trunc_i128(asked: *const Fraction128, asked_len: usize, answers: *mut Answer128, answers_len: usize) -> u32 {
    // SAFETY: the header says what the caller owes for each pointer and its length.
    let asked = crate::items(asked, asked_len);
    let answers = crate::items_mut(answers, answers_len);
    each(&Truncation, asked, answers)
}

/// Each fraction rounded, a half away from zero.
#[no_mangle]
pub unsafe extern "C" fn ratio_round_i128(asked: *const Fraction128, asked_len: usize, answers: *mut Answer128, answers_len: usize) -> u32 {
    // SAFETY: the header says what the caller owes for each pointer and its length.
    let asked = crate::items(asked, asked_len);
    let answers = crate::items_mut(answers, answers_len);
    each(&RoundingToWhole, asked, answers)
}

/// The power of each fraction, not reduced.
#[no_mangle]
pub unsafe extern "C" fn ratio_pow_i128(asked: *const Power128, asked_len: usize, answers: *mut Answer128, answers_len: usize) -> u32 {
    // SAFETY: the header says what the caller owes for each pointer and its length.
    let asked = crate::items(asked, asked_len);
    let answers = crate::items_mut(answers, answers_len);
    each(&Raising, asked, answers)
}

/// The nearest fraction with a denominator from 1 to the bound.
#[no_mangle]
pub unsafe extern "C" fn ratio_nearest_i128(asked: *const Bounded128, asked_len: usize, answers: *mut Answer128, answers_len: usize) -> u32 {
    // SAFETY: the header says what the caller owes for each pointer and its length.
    let asked = crate::items(asked, asked_len);
    let answers = crate::items_mut(answers, answers_len);
    each(&Nearest, asked, answers)
}

/// The simplest fraction within the bounds.
#[no_mangle]
pub unsafe extern "C" fn ratio_between_i128(asked: *const Bounds128, asked_len: usize, answers: *mut Answer128, answers_len: usize) -> u32 {
    // SAFETY: the header says what the caller owes for each pointer and its length.
    let asked = crate::items(asked, asked_len);
    let answers = crate::items_mut(answers, answers_len);
    each(&Between, asked, answers)
}

/// The multiple of 1/parts that the rule says.
#[no_mangle]
pub unsafe extern "C" fn ratio_round_to_i128(asked: *const Multiple128, asked_len: usize, answers: *mut Answer128, answers_len: usize) -> u32 {
    // SAFETY: the header says what the caller owes for each pointer and its length.
    let asked = crate::items(asked, asked_len);
    let answers = crate::items_mut(answers, answers_len);
    each(&RoundingTo, asked, answers)
}

/// The lowest terms of each number by 10^scale.
#[no_mangle]
pub unsafe extern "C" fn ratio_from_scaled_i128(asked: *const Scaled, asked_len: usize, answers: *mut Answer128, answers_len: usize) -> u32 {
    // SAFETY: the header says what the caller owes for each pointer and its length.
    let asked = crate::items(asked, asked_len);
    let answers = crate::items_mut(answers, answers_len);
    each(&Scaling::<i128>::new(), asked, answers)
}

/// The convergent of each fraction at its place, from 0 on.
#[no_mangle]
pub unsafe extern "C" fn ratio_convergent_i128(asked: *const Place128, asked_len: usize, answers: *mut Answer128, answers_len: usize) -> u32 {
    // SAFETY: the header says what the caller owes for each pointer and its length.
    let asked = crate::items(asked, asked_len);
    let answers = crate::items_mut(answers, answers_len);
    each(&ConvergentAt, asked, answers)
}

/// The lowest terms of exactly the value of each float.
#[no_mangle]
pub unsafe extern "C" fn ratio_from_f64_i128(asked: *const f64, asked_len: usize, answers: *mut Answer128, answers_len: usize) -> u32 {
    // SAFETY: the header says what the caller owes for each pointer and its length.
    let asked = crate::items(asked, asked_len);
    let answers = crate::items_mut(answers, answers_len);
    each(&FromFloat::<i128>::new(), asked, answers)
}

/// The simplest fraction that rounds to each float.
#[no_mangle]
pub unsafe extern "C" fn ratio_rationalize_i128(asked: *const f64, asked_len: usize, answers: *mut Answer128, answers_len: usize) -> u32 {
    // SAFETY: the header says what the caller owes for each pointer and its length.
    let asked = crate::items(asked, asked_len);
    let answers = crate::items_mut(answers, answers_len);
    each(&Rationalizing::<i128>::new(), asked, answers)
}

/// The float nearest to each fraction.
#[no_mangle]
pub unsafe extern "C" fn ratio_to_f64_i128(asked: *const Fraction128, asked_len: usize, answers: *mut Float, answers_len: usize) -> u32 {
    // SAFETY: the header says what the caller owes for each pointer and its length.
    let asked = crate::items(asked, asked_len);
    let answers = crate::items_mut(answers, answers_len);
    each(&ToFloat, asked, answers)
}

/// Each fraction over `i32`, not reduced.
#[no_mangle]
pub unsafe extern "C" fn ratio_cast_i128_to_i32(asked: *const Fraction128, asked_len: usize, answers: *mut Answer32, answers_len: usize) -> u32 {
    // SAFETY: the header says what the caller owes for each pointer and its length.
    let asked = crate::items(asked, asked_len);
    let answers = crate::items_mut(answers, answers_len);
    each(&Casting::<i32>::new(), asked, answers)
}

/// Each fraction over `i64`, not reduced.
#[no_mangle]
pub unsafe extern "C" fn ratio_cast_i128_to_i64(asked: *const Fraction128, asked_len: usize, answers: *mut Answer64, answers_len: usize) -> u32 {
    // SAFETY: the header says what the caller owes for each pointer and its length.
    let asked = crate::items(asked, asked_len);
    let answers = crate::items_mut(answers, answers_len);
    each(&Casting::<i64>::new(), asked, answers)
}

/// The fraction of each text in `texts`. The spans name the texts.
#[no_mangle]
pub unsafe extern "C" fn ratio_read_i128(texts: *const u8, texts_len: usize, spans: *const Span, spans_len: usize, answers: *mut Answer128, answers_len: usize) -> u32 {
    // SAFETY: the header says what the caller owes for each pointer and its length.
    let texts = crate::items(texts, texts_len);
    let spans = crate::items(spans, spans_len);
    let answers = crate::items_mut(answers, answers_len);
    let reader = Fractions::<i128>::new();
    each(&Reading { texts, reader }, spans, answers)
}

/// The fraction of each decimal in `texts`, such as `-1.5e-3`, which the spans name.
#[no_mangle]
pub unsafe extern "C" fn ratio_read_decimal_i128(texts: *const u8, texts_len: usize, spans: *const Span, spans_len: usize, answers: *mut Answer128, answers_len: usize) -> u32 {
    // SAFETY: the header says what the caller owes for each pointer and its length.
    let texts = crate::items(texts, texts_len);
    let spans = crate::items(spans, spans_len);
    let answers = crate::items_mut(answers, answers_len);
    let reader = DecimalTexts::<i128>::new();
    each(&Reading { texts, reader }, spans, answers)
}

/// The fraction of each text that a person typed, such as `-1 1/2` and `12.5%`. The spans name the texts.
#[no_mangle]
pub unsafe extern "C" fn ratio_read_text_i128(texts: *const u8, texts_len: usize, spans: *const Span, spans_len: usize, answers: *mut Answer128, answers_len: usize) -> u32 {
    // SAFETY: the header says what the caller owes for each pointer and its length.
    let texts = crate::items(texts, texts_len);
    let spans = crate::items(spans, spans_len);
    let answers = crate::items_mut(answers, answers_len);
    let reader = TypedTexts::<i128>::new();
    each(&Reading { texts, reader }, spans, answers)
}

/// The text of each fraction, not reduced, one after another in `texts`, which has `ROOM` bytes for each.
#[no_mangle]
pub unsafe extern "C" fn ratio_print_i128(asked: *const Fraction128, asked_len: usize, texts: *mut u8, texts_len: usize, answers: *mut Text, answers_len: usize) -> u32 {
    // SAFETY: the header says what the caller owes for each pointer and its length.
    let asked = crate::items(asked, asked_len);
    let texts = crate::items_mut(texts, texts_len);
    let answers = crate::items_mut(answers, answers_len);
    print(&Fields, asked, ROOM, texts, answers)
}

/// The text of each fraction as a decimal, one after another in `texts`, which has `DECIMAL_ROOM` bytes for each.
#[no_mangle]
pub unsafe extern "C" fn ratio_print_decimal_i128(asked: *const Decimal128, asked_len: usize, texts: *mut u8, texts_len: usize, answers: *mut Text, answers_len: usize) -> u32 {
    // SAFETY: the header says what the caller owes for each pointer and its length.
    let asked = crate::items(asked, asked_len);
    let texts = crate::items_mut(texts, texts_len);
    let answers = crate::items_mut(answers, answers_len);
    print(&Decimals, asked, DECIMAL_ROOM, texts, answers)
}
