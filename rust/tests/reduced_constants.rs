//! Constants of `Reduced`: `const_new` beside a model of whole numbers, over all pairs of `i8` and `u8`, and the macro `ratio`.

use bakhsney::{ratio, Reduced, Reduced64};
use std::panic::catch_unwind;

/// The lowest terms of a fraction, by trying each divisor.
fn lowest(numer: i32, denom: i32) -> Option<(i32, i32)> {
    let sign = if denom < 0 { -1 } else { 1 };
    let divisor = (1..=256).rev().find(|divisor| numer % divisor == 0 && denom % divisor == 0)?;
    if denom == 0 { None } else { Some((numer / divisor * sign, denom / divisor * sign)) }
}

/// `const_new` of all pairs: each has the lowest terms, or panics.
macro_rules! all_pairs {
    ($($test:ident $type:ident;)*) => {$(
        #[test]
        fn $test() {
            let fits = |(n, d): (i32, i32)| Some(($type::try_from(n).ok()?, $type::try_from(d).ok()?));
            for n in <$type>::MIN..=<$type>::MAX {
                for d in <$type>::MIN..=<$type>::MAX {
                    let made = catch_unwind(|| Reduced::<$type>::const_new(n, d).into_raw());
                    assert_eq!(made.ok(), lowest(n.into(), d.into()).and_then(fits), "{n}/{d}");
                }
            }
        }
    )*};
}

all_pairs! {
    of_i8 i8;
    of_u8 u8;
}

/// The terms at the ends of each type, beside `checked_new`.
#[test]
fn ends_of_each_type() {
    macro_rules! ends {
        ($($type:ident)*) => {$(
            let ends = [<$type>::MIN, <$type>::MIN + 1, 1, 2, <$type>::MAX - 1, <$type>::MAX];
            for (n, d) in ends.into_iter().flat_map(|n| ends.map(|d| (n, d))) {
                if let Some(made) = Reduced::checked_new(n, d) {
                    assert_eq!(Reduced::<$type>::const_new(n, d), made, "{n}/{d}");
                }
            }
        )*};
    }
    ends! { i8 i16 i32 i64 i128 isize u8 u16 u32 u64 u128 usize }
}

const RATE: Reduced64 = ratio!(19/100);
const LEAST: Reduced<i128> = ratio!(-170141183460469231731687303715884105728, i128);

#[test]
fn by_the_macro() {
    let fields = [RATE, ratio!(1/3), ratio!(-7/2), ratio!(5), ratio!(-6/-4), ratio!(0/-9), ratio!(1_000 / 0x10)].map(Reduced::into_raw);
    assert_eq!(fields, [(19, 100), (1, 3), (-7, 2), (5, 1), (3, 2), (0, 1), (125, 2)]);
    assert_eq!(LEAST.into_raw(), (i128::MIN, 1));
    assert_eq!(ratio!(255/254, u8).into_raw(), (255u8, 254));
    assert_eq!(ratio!(-128/64, i8).into_raw(), (-2i8, 1));
    assert_eq!([ratio!(7, isize), ratio!(14/2, isize)].map(Reduced::into_raw), [(7isize, 1); 2]);
}

/// In a `const fn`, and in a `static`.
#[test]
fn where_constants_are() {
    const fn half() -> Reduced<u16> {
        Reduced::<u16>::const_new(500, 1000)
    }
    static TABLE: [Reduced<u16>; 2] = [half(), ratio!(3/9, u16)];
    assert_eq!(TABLE.map(Reduced::into_raw), [(1, 2), (1, 3)]);
}
