//! `BigFraction` where memory is wanting: the allocator of this program refuses the one request that a test names. Each call with `try_` then returns
//! an error, one with an `Option` returns `None`, and each other one panics. The operands stay as they were. Short fractions ask for nothing.
#![cfg(all(feature = "alloc", panic = "unwind"))]

use bakhsney::{AllocError, BigFraction, BigTextRefusal, Ratio, Reduced, Rounding};
use num_traits::{CheckedAdd, CheckedDiv, CheckedEuclid, CheckedMul, CheckedRem, CheckedSub, Euclid, Num, Signed, ToPrimitive};
use std::alloc::{GlobalAlloc, Layout, System};
use std::cell::Cell;
use std::fmt::Write;
use std::panic::{catch_unwind, AssertUnwindSafe};

struct Refusing;

const NEVER: u64 = u64::MAX;

thread_local! {
    /// How many requests of this thread come before the one that is refused.
    static BEFORE: Cell<u64> = const { Cell::new(NEVER) };
    /// A longer request of this thread is refused, too.
    static MOST: Cell<usize> = const { Cell::new(usize::MAX) };
}

fn is_refused(size: usize) -> bool {
    if MOST.try_with(|most| most.get() < size).unwrap_or(false) {
        return true;
    }
    let next = |before: &Cell<u64>| match before.get() {
        NEVER => false,
        0 => {
            before.set(NEVER);
            true
        }
        count => {
            before.set(count - 1);
            false
        }
    };
    BEFORE.try_with(next).unwrap_or(false)
}

// SAFETY: what it returns is null, or comes from the system's allocator.
unsafe impl GlobalAlloc for Refusing {
    unsafe fn alloc(&self, layout: Layout) -> *mut u8 {
        if is_refused(layout.size()) { std::ptr::null_mut() } else { System.alloc(layout) }
    }

    unsafe fn dealloc(&self, place: *mut u8, layout: Layout) {
        System.dealloc(place, layout);
    }

    unsafe fn realloc(&self, place: *mut u8, layout: Layout, size: usize) -> *mut u8 {
        if is_refused(size) { std::ptr::null_mut() } else { System.realloc(place, layout, size) }
    }
}

#[global_allocator]
static ALLOCATOR: Refusing = Refusing;

/// What the call returns if the request after `before` others is refused, and whether there was such a request.
fn refused<R>(before: u64, call: impl FnOnce() -> R) -> (R, bool) {
    BEFORE.with(|cell| cell.set(before));
    let result = call();
    let was_refused = BEFORE.with(|cell| cell.replace(NEVER)) == NEVER;
    (result, was_refused)
}

type Call<'a, R> = (&'a str, Box<dyn Fn() -> R + 'a>);

macro_rules! calls {
    ($($call:expr;)*) => {
        vec![$((stringify!($call), Box::new(|| $call) as Box<dyn Fn() -> _>)),*]
    };
}

/// Refuses each request of the calls in turn. `is_refusal` tests what a call then returns. Only a request for a shorter copy, to give memory back,
/// may be refused without that, and no call has two of these.
fn each_request<R>(calls: Vec<Call<R>>, is_refusal: impl Fn(&R) -> bool) {
    for (name, call) in calls {
        let mut refusals = 0;
        let requests = (0..).find(|&before| {
            let (result, was_refused) = refused(before, &call);
            assert!(was_refused || !is_refusal(&result), "{name} where none of its {before} requests is refused");
            refusals += u64::from(is_refusal(&result));
            !was_refused
        });
        assert!(refusals > 0 && requests <= Some(refusals + 1), "{name}: {refusals} refusals at {requests:?} requests");
    }
}

/// Two fractions that do not fit an `i64`, with a common factor in their denominators.
fn long() -> (BigFraction, BigFraction) {
    let x = BigFraction::from_digits(true, &[1, 2, 3], &[0, 6]).unwrap();
    let y = BigFraction::from_digits(false, &[5, 1], &[0, 0, 7]).unwrap();
    (x, y)
}

/// The second one of these with a numerator that is greater by 1.
fn next() -> BigFraction {
    BigFraction::from_digits(false, &[6, 1], &[0, 0, 7]).unwrap()
}

/// Takes any text, without memory.
struct Nowhere;

impl Write for Nowhere {
    fn write_str(&mut self, _: &str) -> std::fmt::Result {
        Ok(())
    }
}

const LONG: &str = "-123456789012345678901234567890/7";

#[test]
fn tried() {
    let (x, y) = &long();
    let (next, below) = (&next(), &-y);
    let before = (x.to_string(), y.to_string());
    let ok = |result: Result<BigFraction, AllocError>| result.map(drop);
    let some = |result: Result<Option<BigFraction>, AllocError>| result.map(|fraction| drop(fraction.expect("it exists")));
    let calls = calls! {
        ok(x.try_add(y));
        ok(x.try_sub(y));
        ok(x.try_mul(y));
        some(x.try_div(y));
        some(x.try_rem(y));
        some(x.try_div_euclid(y));
        some(x.try_rem_euclid(y));
        some(x.try_rem_euclid(below));
        ok(x.try_gcd(y));
        ok(x.try_lcm(y));
        ok(x.try_neg());
        ok(x.try_abs());
        ok(x.try_clone());
        some(x.try_recip());
        some(x.try_pow(-5));
        some(x.try_pow(1000));
        some(x.try_pow_within(-5, 1000));
        some(x.try_round_to(100, Rounding::Up));
        some(x.try_round_to_multiple_of(y, Rounding::Up));
        some(BigFraction::try_simplest_between(y, next));
        x.try_continued_fraction().map(drop);
        some(x.try_nearest(&BigFraction::from(1_000_000)));
        [x.try_floor(), x.try_ceil(), x.try_round(), x.try_trunc(), x.try_fract(), x.try_numer(), x.try_denom()].into_iter().try_for_each(ok);
        x.try_cmp(y).map(drop);
        x.try_decimal(5, Rounding::Floor).map(drop);
        x.try_to_string().map(drop);
        x.try_to_f64().map(drop);
        some(BigFraction::try_new(1, u128::MAX));
        some(BigFraction::try_new(x, y));
        some(BigFraction::try_new(Ratio::new(1, u128::MAX), Ratio::new(1, 3)));
        some(BigFraction::try_from_digits(false, &[0, 1], &[3]));
        some(BigFraction::try_from_float(1e300));
        BigFraction::try_from_str(LONG).map(|read| drop(read.unwrap()));
        BigFraction::try_from_decimal("1e50").map(|read| drop(read.unwrap()));
        BigFraction::try_from_text("1e22%").map(|read| drop(read.unwrap()));
    };
    each_request(calls, |result| *result == Err(AllocError));
    assert_eq!((x.to_string(), y.to_string()), before);
}

/// num-bigint's own requests are not refused: a program ends there.
#[cfg(feature = "num-bigint")]
#[test]
fn of_big_integers() {
    let number = num_bigint::BigInt::from(i128::MIN);
    let fraction = bakhsney::BigRational::new_raw(number.clone(), number + 1);
    each_request(calls! { BigFraction::try_from(&fraction).map(drop); }, Result::is_err);
}

#[test]
fn refusals_of_texts() {
    let calls = calls! {
        BigFraction::from_decimal("1e50").map(drop);
        BigFraction::from_text("1e22%").map(drop);
        BigFraction::from_decimal_within("1e50", 1000).map(drop);
        BigFraction::from_text_within("-1e22%", 1000).map(drop);
        BigFraction::from_text_within("1 1/12345678901234567890", 1000).map(drop);
        BigFraction::from_text_within(LONG, 1000).map(drop);
    };
    each_request(calls, |result| *result == Err(BigTextRefusal::NoMemory));
}

#[test]
fn no_room_for_a_power() {
    let x = BigFraction::from(3);
    MOST.with(|most| most.set(1 << 20));
    let (result, was_second) = refused(1, || x.try_pow(1 << 40));
    MOST.with(|most| most.set(usize::MAX));
    assert_eq!((result, was_second), (Err(AllocError), false), "the first request is for the whole power");
}

#[test]
fn options() {
    let (x, y) = &long();
    let next = &next();
    let calls = calls! {
        x.checked_add(y).map(drop);
        x.checked_sub(y).map(drop);
        x.checked_mul(y).map(drop);
        x.checked_div(y).map(drop);
        x.checked_rem(y).map(drop);
        x.checked_div_euclid(y).map(drop);
        x.checked_rem_euclid(y).map(drop);
        BigFraction::checked_new(x, y).map(drop);
        BigFraction::checked_new(1, u128::MAX).map(drop);
        BigFraction::from_digits(false, &[0, 1], &[3]).map(drop);
        BigFraction::from_float(1e300).map(drop);
        BigFraction::simplest_between(y, next).map(drop);
        x.nearest(&BigFraction::from(1_000_000)).map(drop);
        x.pow_within(3, 1000).map(drop);
        x.to_f64().map(drop);
        x.to_i64().map(drop);
    };
    each_request(calls, Option::is_none);
}

#[test]
fn panics() {
    let (x, y) = &long();
    let calls = calls! {
        drop(x + y);
        drop(x - y);
        drop(x * y);
        drop(x / y);
        drop(x % y);
        drop((x - 1, x * Ratio::new(1, u128::MAX), Reduced::from(i128::MIN) / y, u64::MAX + x));
        drop((x.div_euclid(y), x.rem_euclid(y), BigFraction::new(x, y)));
        drop(-x);
        drop(x.clone());
        drop(x.abs());
        drop(x.recip());
        drop(x.pow(3));
        drop(x.round_to(100, Rounding::Up));
        drop(x.round_to_multiple_of(y, Rounding::Up));
        drop(x.continued_fraction());
        drop((x.floor(), x.ceil(), x.round(), x.trunc(), x.fract()));
        assert!(x < y);
        assert!(*y > Ratio::new(1, u128::MAX) && *x != Ratio::new(1, i128::MAX) && Reduced::from(i128::MIN) < *y && *x < u128::MAX);
        drop((x.numer(), x.denom(), x.numer_digits(), x.denom_digits()));
        drop((x.to_integer(), x.clone().into_raw()));
        drop(x.decimal(3, Rounding::Up));
        write!(Nowhere, "{x} {x:.3} {x:?} {x:e} {x:E}").unwrap();
        drop(LONG.parse::<BigFraction>());
        drop(BigFraction::from_str_radix("100000000000000000000/7", 16));
        drop(BigFraction::from(u128::MAX));
        drop(BigFraction::new(u128::MAX, 2));
    };
    std::panic::set_hook(Box::new(|_| {}));
    let all = calls.into_iter().map(|(name, call)| {
        let caught = move || {
            let cause = catch_unwind(AssertUnwindSafe(&call)).err()?;
            let text = cause.downcast_ref::<String>().cloned();
            text.or_else(|| cause.downcast_ref::<&str>().map(|text| text.to_string()))
        };
        (name, Box::new(caught) as Box<dyn Fn() -> Option<String>>)
    });
    each_request(all.collect(), |message| message.as_deref() == Some("memory allocation failed"));
}

#[test]
fn short_ones_take_no_memory() {
    let (x, y) = (BigFraction::new(-7, 6), BigFraction::new(5, 4));
    let (_, was_refused) = refused(0, || {
        let all = [&x + &y, &x - &y, &x * &y, &x / &y, &x % &y, -&x, x.abs(), x.clone(), x.recip(), x.pow(20), x.numer(), x.denom()];
        assert!(all.iter().all(|result| result < &BigFraction::from(i64::MAX)));
        assert_eq!([x.round_to(100, Rounding::Up), x.round_to_multiple_of(&BigFraction::new(1, 5), Rounding::Up)], [BigFraction::new(-117, 100), BigFraction::new(-6, 5)]);
        assert!([&x + 1, 2 * &x, &x - Ratio::new(1, 3), Reduced::from(3) / &y, BigFraction::new(&x, &y)].iter().all(|result| *result < i64::MAX));
        assert!(y == Ratio::new(5, 4) && x != Reduced::from(-1) && x != 7 && x < Ratio::new(-1, 1) && x != u128::MAX && i8::try_from(&y).is_err());
        assert!(x.floor() < x.ceil() && x.round() == x.trunc() && x == x.clone() && x.fract().is_negative());
        assert!(BigFraction::simplest_between(&x, &y) == Some(BigFraction::from(0)) && BigFraction::simplest_between(&y, &x).is_none());
        assert_eq!([x.gcd(&y), x.lcm(&y)], [BigFraction::new(1, 12), BigFraction::new(35, 2)]);
        assert!(BigFraction::from(0).numer_digits().is_empty());
        assert_eq!(BigFraction::from_digits(true, &[14, 0], &[12]).as_ref(), Some(&x));
        assert_eq!(("-7/6".parse(), BigFraction::from_float(0.5), x.to_i64()), (Ok(x), Some(BigFraction::new(1, 2)), Some(-1)));
    });
    assert!(!was_refused);
}

#[test]
fn refused_texts_take_no_memory() {
    let (_, was_refused) = refused(0, || {
        for text in ["x", "1/x", "123456789012345678901234567890/0", "1/0000000000000000000000000"] {
            assert!(matches!(BigFraction::try_from_str(text), Ok(Err(_))), "{text}");
        }
    });
    assert!(!was_refused);
}
