//! Each call beside num-rational: over all fields from -7 to 7, and over hard fields of each type beside fractions of big integers.
//!
//! num-rational is right about fractions in lowest terms whose numbers do not overflow. So it gets each operand with a negative
//! denominator in lowest terms. Big integers never overflow.

// The tests are about these forms.
#![allow(clippy::op_ref, clippy::clone_on_copy)]

mod support;

use bakhsney::{integer::Integer, Ratio, Reduced};
use original::{BigRational, Ratio as Original};
use num_traits::{
    CheckedAdd, CheckedDiv, CheckedMul, CheckedRem, CheckedSub, FromPrimitive, Inv, Num, One, Pow, Signed, ToPrimitive, Zero,
};
use std::cell::Cell;
use std::collections::hash_map::DefaultHasher;
use std::fmt::Debug;
use std::hash::{Hash, Hasher};
use std::panic::{catch_unwind, set_hook, take_hook, UnwindSafe};
use std::sync::Once;
use support::Numbers;

type Fields<T> = (T, T);

fn hash_of(x: impl Hash) -> u64 {
    let mut state = DefaultHasher::new();
    x.hash(&mut state);
    state.finish()
}

thread_local! {
    /// Whether the call that runs now may panic.
    static MAY_PANIC: Cell<bool> = const { Cell::new(false) };
}

/// The result, or nothing if the call panics. Such a panic is expected, so nothing prints it.
fn unless_it_panics<R>(call: impl FnOnce() -> R + UnwindSafe) -> Option<R> {
    MAY_PANIC.with(|may| may.set(true));
    let result = catch_unwind(call).ok();
    MAY_PANIC.with(|may| may.set(false));
    result
}

/// The fields, or nothing if the call panics.
fn or_panic<T>(call: impl FnOnce() -> Ratio<T> + UnwindSafe) -> Option<Fields<T>> {
    unless_it_panics(call).map(Ratio::into_raw)
}

fn without_expected_messages() {
    static ONCE: Once = Once::new();
    ONCE.call_once(|| {
        let old = take_hook();
        set_hook(Box::new(move |panic| {
            if !MAY_PANIC.with(Cell::get) {
                old(panic);
            }
        }));
    });
}

// The results of an operator in each of its forms: by a fraction, and by a whole number if there is one.
macro_rules! forms {
    ($x:ident $op:tt $assign:tt $y:ident) => {
        [
            or_panic(move || $x $op $y),
            or_panic(move || $x $op &$y),
            or_panic(move || &$x $op $y),
            or_panic(move || &$x $op &$y),
            or_panic(move || { let mut z = $x; z $assign $y; z }),
            or_panic(move || { let mut z = $x; z $assign &$y; z }),
        ]
    };
}

// Each operator, with its checked call.
macro_rules! each_operator {
    ($do:ident; $($operand:tt)*) => {
        $do! { + += checked_add; $($operand)* }
        $do! { - -= checked_sub; $($operand)* }
        $do! { * *= checked_mul; $($operand)* }
        $do! { / /= checked_div; $($operand)* }
        $do! { % %= checked_rem; $($operand)* }
    };
}

/// All fractions of these fields with a denominator other than 0.
fn small() -> impl Iterator<Item = Fields<i64>> {
    (-7..=7).flat_map(|numer| (-7..=7).filter(|&denom| denom != 0).map(move |denom| (numer, denom)))
}

/// The operand that num-rational gets.
fn sound((numer, denom): Fields<i64>) -> Original<i64> {
    if denom > 0 { Original::new_raw(numer, denom) } else { Original::new(numer, denom) }
}

fn fields(x: Original<i64>) -> Fields<i64> {
    x.into()
}

#[test]
fn operators_of_small_fields() {
    without_expected_messages();
    macro_rules! row {
        ($op:tt $assign:tt $checked:ident; $left:ident $right:ident) => {
            let (x, y) = (Ratio::new_raw($left.0, $left.1), Ratio::new_raw($right.0, $right.1));
            let (old, other) = (sound($left), sound($right));
            let is_none = $right.0 == 0 && ["/", "%"].contains(&stringify!($op));
            let want = if is_none { None } else { Some(fields(old $op other)) };
            assert_eq!(x.$checked(&y).map(Ratio::into_raw), want, "{x} {} {y}", stringify!($op));
            if !is_none || $left == (1, 1) {
                assert_eq!(forms!(x $op $assign y), [want; 6], "{x} {} {y}", stringify!($op));
            }
            if $right.1 == 1 && (!is_none || $left == (1, 1)) {
                let number = $right.0;
                assert_eq!(forms!(x $op $assign number), [want; 6], "{x} {} {number}", stringify!($op));
            }
            let lowest = [x, y].map(|x| Reduced::from_ratio(&x).unwrap());
            let reduced = lowest[0].$checked(lowest[1]).map(Reduced::into_raw);
            assert_eq!(reduced, want, "{x} {} {y}", stringify!($op));
        };
    }
    for left in small() {
        for right in small() {
            each_operator! { row; left right }
        }
    }
}

#[test]
fn comparisons_of_small_fields() {
    for left in small() {
        for right in small() {
            let (x, y) = (Ratio::new_raw(left.0, left.1), Ratio::new_raw(right.0, right.1));
            let (old, other) = (Original::new(left.0, left.1), Original::new(right.0, right.1));
            assert_eq!((x.cmp(&y), x.partial_cmp(&y)), (old.cmp(&other), old.partial_cmp(&other)), "{x} and {y}");
            assert_eq!([x < y, x <= y, x > y, x >= y], [old < other, old <= other, old > other, old >= other], "{x} and {y}");
            assert_eq!([x == y, x != y], [old == other, old != other], "{x} and {y}");
            assert_eq!(hash_of(x) == hash_of(y), old == other, "{x} and {y}");
            assert_eq!((x.max(y), x.min(y)), if x <= y { (y, x) } else { (x, y) });
            assert_eq!(x.abs_sub(&y).into_raw(), fields(old.abs_sub(&other)), "{x} and {y}");
        }
    }
}

/// What each of the two crates says of a fraction. The calls keep the fields of a positive denominator.
macro_rules! facts {
    ($x:ident $Ratio:ident) => {{
        let wholes = [$x.floor(), $x.ceil(), $x.round(), $x.trunc(), $x.fract(), $x.reduced()];
        let numbers = ($x.to_integer(), $x.to_i64(), $x.to_u64(), $x.to_i128(), $x.to_u128(), $x.to_i8(), $x.to_usize());
        let floats = ($x.to_f64(), $x.to_f32());
        let signs = ($x.is_positive(), $x.is_negative(), $x.is_zero(), $x.is_one(), $x.is_integer());
        let powers: Vec<_> = (-4..=4).filter(|&e| e >= 0 || !$x.is_zero()).flat_map(|e| {
            [Pow::pow($x, e), Pow::pow(&$x, e), Pow::pow($x, &e), Pow::pow(&$x, &e), $Ratio::<i64>::pow(&$x, e)]
        }).map(|power| -> (i64, i64) { power.into() }).collect();
        let inverses = if $x.is_zero() { vec![] } else { vec![$x.recip(), $x.inv(), (&$x).inv()] };
        let negatives = [-$x, -&$x, $x.abs(), $x.signum()];
        let others: Vec<(i64, i64)> = wholes.into_iter().chain(inverses).chain(negatives).map(|x| -> (i64, i64) { x.into() }).collect();
        (numbers, floats, signs, powers, others)
    }};
}

/// The texts of a fraction.
macro_rules! texts {
    ($x:ident) => {
        [
            format!("{} {:+} {:8} {:<8} {:^8} {:*>8} {:08} {:.1} {:#}", $x, $x, $x, $x, $x, $x, $x, $x, $x),
            format!("{:b} {:o} {:x} {:X} {:e} {:E}", $x, $x, $x, $x, $x, $x),
            format!("{:#b} {:#o} {:#x} {:#X} {:#e} {:#E}", $x, $x, $x, $x, $x, $x),
            format!("{:+070b} {:>30o} {:^+30x} {:-<30X} {:09e} {:+9E}", $x, $x, $x, $x, $x, $x),
        ]
    };
}

#[test]
fn calls_of_small_fields() {
    for (numer, denom) in small() {
        let (x, old) = (Ratio::new_raw(numer, denom), sound((numer, denom)));
        let (ours, theirs) = (facts!(x Ratio), facts!(old Original));
        assert_eq!((ours.0, ours.1), (theirs.0, theirs.1), "{x}");
        if denom > 0 {
            assert_eq!((ours.2, ours.3, ours.4), (theirs.2, theirs.3, theirs.4), "{x}");
            assert_eq!(hash_of(x), hash_of(Original::new(numer, denom)), "{x}");
        } else {
            let same = |ours: &[Fields<i64>], theirs: &[Fields<i64>]| {
                ours.len() == theirs.len() && ours.iter().zip(theirs).all(|(x, y)| Ratio::from(*x) == Ratio::from(*y))
            };
            assert!(same(&ours.3, &theirs.3) && same(&ours.4, &theirs.4), "{x}");
        }
        let raw = Original::new_raw(numer, denom);
        assert_eq!((texts!(x), format!("{x:?}")), (texts!(raw), format!("{raw:?}")));
        assert_eq!((x.into_raw(), (*x.numer(), *x.denom())), ((numer, denom), (*raw.numer(), *raw.denom())));
    }
}

#[test]
fn reading_and_making() {
    let texts = ["0", "-0", "+1", "1/2", "-6/4", "6/-4", "-6/-4", "1/0", "0/0", "7/7", "", "/", "1/", "/2", "1//2", "1/2/3", " 1", "1 ", "a/b", "z", "00012/0030", "--1", "+-1", "1.5", "0x1/2", "9223372036854775807/9223372036854775807", "9223372036854775808"];
    for text in texts {
        let (ours, theirs) = (text.parse::<Ratio<i64>>(), text.parse::<Original<i64>>());
        assert_eq!(ours.as_ref().map(|x| x.into_raw()).ok(), theirs.as_ref().map(|x| fields(*x)).ok(), "{text:?}");
        assert_eq!(ours.map_err(|refusal| refusal.to_string()).err(), theirs.map_err(|refusal| refusal.to_string()).err(), "{text:?}");
        for radix in [2, 3, 10, 16, 36] {
            let (ours, theirs) = (Ratio::<i64>::from_str_radix(text, radix), Original::<i64>::from_str_radix(text, radix));
            assert_eq!(ours.map(Ratio::into_raw).ok(), theirs.map(fields).ok(), "{text:?} in base {radix}");
        }
    }
    for (numer, denom) in small() {
        let pair = (numer, denom);
        let made = [Ratio::new(numer, denom), pair.into()].map(Ratio::into_raw);
        assert_eq!(made, [Original::new(numer, denom), pair.into()].map(fields));
    }
    for n in -7..=7 {
        assert_eq!([Ratio::from_integer(n), n.into()].map(Ratio::into_raw), [fields(Original::from_integer(n)); 2]);
    }
    assert_eq!([Ratio::zero(), Ratio::one(), Ratio::default()].map(Ratio::into_raw), [Original::zero(), Original::one(), Original::default()].map(fields));
    let items: Vec<Fields<i64>> = small().filter(|(numer, denom)| *numer != 0 && *denom > 0 && denom % 5 != 0 && denom % 7 != 0).collect();
    let (ours, theirs): (Vec<_>, Vec<_>) = items.iter().map(|x| (Ratio::from(*x), Original::from(*x))).unzip();
    assert_eq!(ours.iter().sum::<Ratio<i64>>().into_raw(), fields(theirs.iter().sum()));
    assert_eq!(ours.iter().copied().sum::<Ratio<i64>>().into_raw(), fields(theirs.iter().sum()));
    assert_eq!(ours[..12].iter().product::<Ratio<i64>>().into_raw(), fields(theirs[..12].iter().product()));
    assert_eq!(ours[..12].iter().copied().product::<Ratio<i64>>().into_raw(), fields(theirs[..12].iter().product()));
}

fn big<T: Integer>((numer, denom): Fields<T>) -> BigRational {
    let whole = |n: T| n.to_i128().and_then(BigRational::from_i128).or_else(|| BigRational::from_u128(n.to_u128()?)).unwrap();
    whole(numer) / whole(denom)
}

/// The fields over `T` of a fraction of big integers, if they fit.
fn fitting<T: Integer>(x: &BigRational) -> Option<Fields<T>> {
    let whole = |n: Option<i128>, m: Option<u128>| n.and_then(T::from).or_else(|| T::from(m?));
    Some((whole(x.numer().to_i128(), x.numer().to_u128())?, whole(x.denom().to_i128(), x.denom().to_u128())?))
}

/// Numbers at the ends of the type, around its half and its root, and around 0.
fn hard<T: Integer>() -> Vec<T> {
    let (one, two, three) = (T::one(), T::one() + T::one(), T::one() + T::one() + T::one());
    let root = T::one() << (T::zero().count_zeros() / 2 - 1) as usize;
    let (least, most) = (T::min_value(), T::max_value());
    let mut all = vec![T::zero(), one, two, three, root - one, root, root + one, most / three, most / two, most / two + one, most - one, most];
    if least < T::zero() {
        all.extend([least, least + one, least / two, least / three, T::zero() - one, T::zero() - two, T::zero() - root]);
    }
    all
}

/// What `checked` of num-rational says, where it does not panic.
fn original<T: Debug>(checked: impl FnOnce() -> Option<Original<T>> + UnwindSafe) -> Option<Fields<T>> {
    unless_it_panics(checked)?.map(Into::into)
}

/// Each of these fields on the left and on the right, with others that are drawn. The variable `BAKHSNEY_PAIRS` is a number of more
/// pairs, of which both sides are drawn.
fn pairs<T: Copy>(all: &[Fields<T>]) -> Vec<(Fields<T>, Fields<T>)> {
    let mut dice = Numbers(5);
    let mut drawn = || all[dice.below(all.len() as u64) as usize];
    let mut pairs: Vec<_> = all.iter().flat_map(|&x| [(x, drawn()), (drawn(), x)]).collect();
    let more = std::env::var("BAKHSNEY_PAIRS").map_or(0, |count| count.parse().unwrap());
    pairs.extend((0..more).map(|_| (drawn(), drawn())));
    pairs
}

// One test for each type. The word says if its sums and differences are refused only where they do not fit.
macro_rules! ends {
    ($($name:ident $T:ident $exact_sums:literal;)*) => {$(
        #[test]
        fn $name() {
            without_expected_messages();
            let numbers = hard::<$T>();
            let all: Vec<Fields<$T>> = numbers.iter().flat_map(|&n| numbers.iter().filter(|d| **d != 0).map(move |&d| (n, d))).collect();
            let mut refused = 0;
            for (left, right) in pairs(&all) {
                let (x, y) = (Ratio::new_raw(left.0, left.1), Ratio::new_raw(right.0, right.1));
                let (exact, other) = (big(left), big(right));
                assert_eq!((x.cmp(&y), x == y, hash_of(x) == hash_of(y)), (exact.cmp(&other), exact == other, exact == other), "{x} and {y}");
                assert_eq!(Ratio::checked_new(left.0, left.1).map(Ratio::into_raw), fitting(&exact), "{x}");
                let have_terms = fitting::<$T>(&exact).is_some() && fitting::<$T>(&other).is_some();
                macro_rules! row {
                    ($op:tt $assign:tt $checked:ident; ) => {
                        let found = x.$checked(&y).map(Ratio::into_raw);
                        let want = if right.0 == 0 && ["/", "%"].contains(&stringify!($op)) { None } else { fitting(&(&exact $op &other)) };
                        let what = format!("{x} {} {y}", stringify!($op));
                        if found.is_some() {
                            assert_eq!(found, want, "{what}");
                        } else if want.is_some() && have_terms {
                            assert!(!["*", "/"].contains(&stringify!($op)) && !($exact_sums && stringify!($op) != "%"), "{what} is refused");
                            let (old, other) = (Original::new_raw(left.0, left.1), Original::new_raw(right.0, right.1));
                            // Without debug assertions num-rational wraps, and may have the right result by luck.
                            if left.1 > 0 && right.1 > 0 && cfg!(debug_assertions) {
                                let theirs = original(move || by_original!($checked old other));
                                assert!(theirs != want, "{what} is refused, and num-rational gives it");
                            }
                        }
                        if found.is_some() || refused < 100 {
                            refused += usize::from(found.is_none());
                            assert_eq!(forms!(x $op $assign y), [found; 6], "{what}");
                            let (number, by_number) = (right.0, Ratio::from_integer(right.0));
                            let found = x.$checked(&by_number).map(Ratio::into_raw);
                            assert_eq!(forms!(x $op $assign number), [found; 6], "{what} without its denominator");
                        }
                        let lowest = [x, y].map(|x| Reduced::from_ratio(&x));
                        if let [Some(x), Some(y)] = lowest {
                            let of_reduced = x.$checked(y).map(Reduced::into_raw);
                            if $T::BITS < 128 || stringify!($op) != "%" {
                                assert_eq!(of_reduced, want, "{what}, reduced");
                            }
                            assert!(of_reduced.is_none() || of_reduced == want, "{what}, reduced");
                        }
                    };
                }
                each_operator! { row; }
                rounded(left, &exact);
            }
            assert_eq!(refused, 100);
        }
    )*};
}

macro_rules! by_original {
    (checked_rem $x:ident $y:ident) => { Some($x % $y) };
    ($checked:ident $x:ident $y:ident) => { $x.$checked(&$y) };
}

/// The whole numbers near the fraction, and the calls on one fraction that never panic.
fn rounded<T: Integer>(raw: Fields<T>, exact: &BigRational) {
    let x = Ratio::new_raw(raw.0, raw.1);
    assert_eq!((x.to_i64(), x.to_u64()), if fitting::<T>(exact).is_some() { (exact.trunc().to_i64(), exact.trunc().to_u64()) } else { (None, None) }, "{x}");
    if fitting::<T>(exact).is_some() {
        let wholes = [x.floor(), x.ceil(), x.round(), x.trunc()].map(Ratio::into_raw);
        let want = [exact.floor(), exact.ceil(), exact.round(), exact.trunc()].map(|whole| fitting(&whole).unwrap());
        assert_eq!((wholes, x.fract().reduced().into_raw()), (want, fitting(&exact.fract()).unwrap()), "{x}");
        assert_eq!(x.to_integer(), want[3].0, "{x}");
    }
    if *x.denom() > T::zero() {
        let (e, want) = (3, Pow::pow(exact, 3));
        let power = x.checked_pow(e).map(|power| power.reduced().into_raw());
        assert!(power.is_none() || power == fitting(&want), "{x} to the {e}");
        assert_eq!(x.to_string().parse().map(Ratio::into_raw), Ok(fitting::<T>(exact).unwrap()), "{x}");
    }
}

ends! {
    ends_of_i8 i8 false; ends_of_i16 i16 false; ends_of_i32 i32 true; ends_of_i64 i64 true; ends_of_i128 i128 false; ends_of_isize isize false;
    ends_of_u8 u8 false; ends_of_u16 u16 false; ends_of_u32 u32 false; ends_of_u64 u64 false; ends_of_u128 u128 false; ends_of_usize usize false;
}
