//! The calls of the proved library, as its static library exports them to C (`include/ratio.h`).

use crate::answer::{Answer, Number};
use crate::kinds::Fields;

/// An `i128` as its two halves.
#[repr(C)]
#[derive(Clone, Copy)]
pub struct Wide {
    low: u64,
    high: i64,
}

#[repr(C)]
#[derive(Clone, Copy)]
pub struct Fraction<C> {
    numer: C,
    denom: C,
}

#[repr(C)]
#[derive(Clone, Copy)]
pub struct Pair<C> {
    left: Fraction<C>,
    right: Fraction<C>,
}

#[repr(C)]
#[derive(Clone, Copy)]
pub struct Power<C> {
    base: Fraction<C>,
    exponent: i32,
}

/// A place for a fraction.
#[repr(C)]
#[derive(Clone, Copy)]
pub struct Place<C> {
    code: u32,
    value: Fraction<C>,
}

#[repr(C)]
#[derive(Clone, Copy, Default)]
pub struct Order {
    code: u32,
    pub order: i32,
}

#[repr(C)]
#[derive(Clone, Copy, Default)]
pub struct Hash {
    code: u32,
    pub hash: u64,
}

#[repr(C)]
#[derive(Clone, Copy, Debug, Default)]
pub struct Span {
    pub start: usize,
    pub end: usize,
}

#[repr(C)]
#[derive(Clone, Copy, Default)]
pub struct Text {
    code: u32,
    pub span: Span,
}

/// How a number is passed to C and back.
pub trait Crossing: Copy {
    type Number: Number;

    fn of(n: i128) -> Self;

    fn number(self) -> Self::Number;
}

macro_rules! crosses_as_itself {
    ($($t:ty)*) => {
        $(
            impl Crossing for $t {
                type Number = $t;

                fn of(n: i128) -> $t {
                    n as $t
                }

                fn number(self) -> $t {
                    self
                }
            }
        )*
    };
}

crosses_as_itself! { i32 i64 }

impl Crossing for Wide {
    type Number = i128;

    fn of(n: i128) -> Wide {
        Wide { low: n as u64, high: (n >> 64) as i64 }
    }

    fn number(self) -> i128 {
        (i128::from(self.high) << 64) | i128::from(self.low)
    }
}

impl<C: Crossing> Fraction<C> {
    fn of(numer: i128, denom: i128) -> Fraction<C> {
        Fraction { numer: C::of(numer), denom: C::of(denom) }
    }
}

impl<C: Crossing> Pair<C> {
    pub fn of(f: &Fields) -> Pair<C> {
        Pair { left: Fraction::of(f[0], f[1]), right: Fraction::of(f[2], f[3]) }
    }

    pub fn left(&self) -> Fraction<C> {
        self.left
    }

    pub fn left_to(&self, exponent: i32) -> Power<C> {
        Power { base: self.left, exponent }
    }
}

impl<C: Crossing> Place<C> {
    pub fn empty() -> Place<C> {
        Place { code: 9, value: Fraction::of(0, 0) }
    }

    pub fn answer(&self) -> Answer<C::Number> {
        match self.code {
            0 => Answer::some(self.value.numer.number(), self.value.denom.number()),
            1 | 2 => Answer::none(0),
            code => Answer::none(u64::from(code)),
        }
    }
}

pub type Each<A, B> = unsafe extern "C" fn(*const A, usize, *mut B, usize) -> u32;

pub type Read<C> = unsafe extern "C" fn(*const u8, usize, *const Span, usize, *mut Place<C>, usize) -> u32;

pub type Print<C> = unsafe extern "C" fn(*const Fraction<C>, usize, *mut u8, usize, *mut Text, usize) -> u32;

/// The exports of one integer type.
pub struct Exports<C> {
    pub compare: Each<Pair<C>, Order>,
    pub hash: Each<Fraction<C>, Hash>,
    pub add: Each<Pair<C>, Place<C>>,
    pub sub: Each<Pair<C>, Place<C>>,
    pub mul: Each<Pair<C>, Place<C>>,
    pub div: Each<Pair<C>, Place<C>>,
    pub rem: Each<Pair<C>, Place<C>>,
    pub reduce: Each<Fraction<C>, Place<C>>,
    pub floor: Each<Fraction<C>, Place<C>>,
    pub round: Each<Fraction<C>, Place<C>>,
    pub pow: Each<Power<C>, Place<C>>,
    read: Read<C>,
    print: Print<C>,
}

/// Makes the call on each item of `asked`.
pub fn each<A, B>(call: Each<A, B>, asked: &[A], answers: &mut [B]) {
    let code = unsafe { call(asked.as_ptr(), asked.len(), answers.as_mut_ptr(), answers.len()) };
    assert_eq!(code, 0);
}

impl<C: Crossing> Exports<C> {
    /// The fractions of texts.
    pub fn read(&self, texts: &[u8], spans: &[Span], out: &mut [Place<C>]) {
        let code = unsafe {
            (self.read)(texts.as_ptr(), texts.len(), spans.as_ptr(), spans.len(), out.as_mut_ptr(), out.len())
        };
        assert_eq!(code, 0);
    }

    /// The texts of fractions, one after another.
    pub fn print(&self, asked: &[Fraction<C>], texts: &mut [u8], out: &mut [Text]) {
        let code = unsafe {
            (self.print)(asked.as_ptr(), asked.len(), texts.as_mut_ptr(), texts.len(), out.as_mut_ptr(), out.len())
        };
        assert_eq!(code, 0);
    }
}

macro_rules! exports {
    ($list:ident, $c:ty, $compare:ident $hash:ident $add:ident $sub:ident $mul:ident $div:ident $rem:ident $reduce:ident
     $floor:ident $round:ident $pow:ident $read:ident $print:ident) => {
        extern "C" {
            fn $compare(asked: *const Pair<$c>, len: usize, out: *mut Order, room: usize) -> u32;
            fn $hash(asked: *const Fraction<$c>, len: usize, out: *mut Hash, room: usize) -> u32;
            fn $add(asked: *const Pair<$c>, len: usize, out: *mut Place<$c>, room: usize) -> u32;
            fn $sub(asked: *const Pair<$c>, len: usize, out: *mut Place<$c>, room: usize) -> u32;
            fn $mul(asked: *const Pair<$c>, len: usize, out: *mut Place<$c>, room: usize) -> u32;
            fn $div(asked: *const Pair<$c>, len: usize, out: *mut Place<$c>, room: usize) -> u32;
            fn $rem(asked: *const Pair<$c>, len: usize, out: *mut Place<$c>, room: usize) -> u32;
            fn $reduce(asked: *const Fraction<$c>, len: usize, out: *mut Place<$c>, room: usize) -> u32;
            fn $floor(asked: *const Fraction<$c>, len: usize, out: *mut Place<$c>, room: usize) -> u32;
            fn $round(asked: *const Fraction<$c>, len: usize, out: *mut Place<$c>, room: usize) -> u32;
            fn $pow(asked: *const Power<$c>, len: usize, out: *mut Place<$c>, room: usize) -> u32;
            fn $read(texts: *const u8, len: usize, spans: *const Span, count: usize, out: *mut Place<$c>, room: usize) -> u32;
            fn $print(asked: *const Fraction<$c>, count: usize, texts: *mut u8, len: usize, out: *mut Text, room: usize) -> u32;
        }

        pub const $list: Exports<$c> = Exports {
            compare: $compare,
            hash: $hash,
            add: $add,
            sub: $sub,
            mul: $mul,
            div: $div,
            rem: $rem,
            reduce: $reduce,
            floor: $floor,
            round: $round,
            pow: $pow,
            read: $read,
            print: $print,
        };
    };
}

exports!(
    EXPORTS_32, i32, ratio_compare_i32 ratio_hash_i32 ratio_add_i32 ratio_sub_i32 ratio_mul_i32 ratio_div_i32 ratio_rem_i32
    ratio_reduce_i32 ratio_floor_i32 ratio_round_i32 ratio_pow_i32 ratio_read_i32 ratio_print_i32
);
exports!(
    EXPORTS_64, i64, ratio_compare_i64 ratio_hash_i64 ratio_add_i64 ratio_sub_i64 ratio_mul_i64 ratio_div_i64 ratio_rem_i64
    ratio_reduce_i64 ratio_floor_i64 ratio_round_i64 ratio_pow_i64 ratio_read_i64 ratio_print_i64
);
exports!(
    EXPORTS_128, Wide, ratio_compare_i128 ratio_hash_i128 ratio_add_i128 ratio_sub_i128 ratio_mul_i128 ratio_div_i128
    ratio_rem_i128 ratio_reduce_i128 ratio_floor_i128 ratio_round_i128 ratio_pow_i128 ratio_read_i128 ratio_print_i128
);
