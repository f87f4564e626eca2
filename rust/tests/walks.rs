//! Each pair of fractions of `i8`, through the calls on two fractions, beside a model by one sorted list.
//!
//! The list has all fractions of `i8`, by their values. The model looks up the value of a sum in it, which is not there exactly if
//! it does not fit. The order of two fractions is that of their places, and the simplest one between them is found among the
//! fractions between these places. So the model forms no greatest common divisor, and needs no wide numbers.
//!
//! A test takes a quarter of the left fractions, beside each right one. An optimized run with `BAKHSNEY_WALK=all` takes all of the
//! quarter. Else it is eight of them, which `BAKHSNEY_WALK=SEED` chooses.

#[macro_use]
mod support;

use bakhsney::{Ratio, Reduced};
use num_traits::{CheckedAdd, CheckedDiv, CheckedMul, CheckedRem, CheckedSub};
use std::cmp::Ordering;
use std::ops::Bound::{self, Excluded, Included, Unbounded};
use support::Numbers;

type Fields = (i8, i8);

/// How many left fractions of each quarter a short walk takes.
const FEW: usize = 8;

/// All fractions in lowest terms, in the order of their values.
fn sorted() -> Vec<Reduced<i8>> {
    let all = (1..=i8::MAX).flat_map(|denom| (i8::MIN..=i8::MAX).map(move |numer| (numer, denom)));
    let mut sorted: Vec<Fields> = all.filter(|&(numer, denom)| (2..=denom).all(|n| numer % n != 0 || denom % n != 0)).collect();
    sorted.sort_by(|&x, &y| by_value(wide(x), wide(y)));
    sorted.into_iter().map(|(numer, denom)| Reduced::checked_new(numer, denom).unwrap()).collect()
}

fn wide((numer, denom): Fields) -> (i32, i32) {
    (numer.into(), denom.into())
}

/// The order of two pairs with positive denominators.
fn by_value(x: (i32, i32), y: (i32, i32)) -> Ordering {
    (x.0 * y.1).cmp(&(y.0 * x.1))
}

/// The fraction of the list with this value. The denominator may be negative, and if it is 0, there is none.
fn found(sorted: &[Reduced<i8>], (numer, denom): (i32, i32)) -> Option<Fields> {
    let value = if denom < 0 { (-numer, -denom) } else { (numer, denom) };
    let place = sorted.binary_search_by(|x| by_value(wide(x.into_raw()), value));
    place.ok().filter(|_| denom != 0).map(|place| sorted[place].into_raw())
}

/// Of two fractions the simpler one: with the smaller denominator, or else with the numerator that is nearer to 0.
fn simpler(x: Option<Fields>, y: Fields) -> Option<Fields> {
    let size = |(numer, denom): Fields| (denom, numer.unsigned_abs());
    Some(x.map_or(y, |x| if size(x) < size(y) { x } else { y }))
}

/// A step on the way to a sum, a difference or a remainder of two `Ratio`s: both numerators over the least common denominator. `None`
/// if one of these three does not fit.
fn over_one_denominator((a, b): (i32, i32), (c, d): (i32, i32)) -> Option<(i32, i32)> {
    let most = i32::from(i8::MAX);
    let shared = (b..=most).step_by(b as usize).find(|n| n % d == 0)?;
    Some((a * (shared / b), c * (shared / d))).filter(|&(p, q)| fits(p) && fits(q))
}

fn fits(number: i32) -> bool {
    i8::try_from(number).is_ok()
}

/// The five checked calls of `Reduced` and those of `Ratio`.
fn arithmetic(sorted: &[Reduced<i8>], x: Reduced<i8>, y: Reduced<i8>) {
    let ((a, b), (c, d)) = (wide(x.into_raw()), wide(y.into_raw()));
    let rest = if c == 0 { (0, 0) } else { (a * d % (b * c), b * d) };
    let wanted = [(a * d + c * b, b * d), (a * d - c * b, b * d), (a * c, b * d), (a * d, b * c), rest].map(|value| found(sorted, value));
    let reduced = [x.checked_add(y), x.checked_sub(y), x.checked_mul(y), x.checked_div(y), x.checked_rem(y)];
    assert_eq!(reduced.map(|x| x.map(Reduced::into_raw)), wanted, "{x} and {y}: +, -, *, / and %");
    let (left, right) = (x.to_ratio(), y.to_ratio());
    let scaled = over_one_denominator((a, b), (c, d));
    let if_scaled = |wanted: Option<Fields>, result: fn(i32, i32) -> i32| wanted.filter(|_| scaled.map_or(false, |(p, q)| fits(result(p, q))));
    let wanted = [if_scaled(wanted[0], |p, q| p + q), if_scaled(wanted[1], |p, q| p - q), wanted[2], wanted[3], if_scaled(wanted[4], |_, _| 0)];
    let loose = [left.checked_add(&right), left.checked_sub(&right), left.checked_mul(&right), left.checked_div(&right), left.checked_rem(&right)];
    assert_eq!(loose.map(|x| x.map(Ratio::into_raw)), wanted, "{left} and {right} as `Ratio`: +, -, *, / and %");
}

/// The order, of which `wanted` is the order of the places.
fn comparison(x: Reduced<i8>, y: Reduced<i8>, wanted: Ordering) {
    let (left, right) = (x.to_ratio(), y.to_ratio());
    assert_eq!([x.cmp(&y), left.cmp(&right)], [wanted; 2], "{x} cmp {y}");
    assert_eq!([x == y, left == right], [wanted == Ordering::Equal; 2], "{x} == {y}");
}

/// The simplest fraction between the two and within them. `inner` is the simplest one strictly between them.
fn simplest(x: Reduced<i8>, y: Reduced<i8>, order: Ordering, inner: Option<Fields>) {
    let (low, high) = (x.into_raw(), y.into_raw());
    let [from_low, to_high, both] = match order {
        Ordering::Less => [simpler(inner, low), simpler(inner, high), simpler(simpler(inner, low), high)],
        Ordering::Equal => [None, None, Some(low)],
        Ordering::Greater => [None; 3],
    };
    let within = |low, high| Reduced::simplest_within(low, high).map(Reduced::into_raw);
    assert_eq!(Reduced::simplest_between(&x, &y).map(Reduced::into_raw), inner, "between {x} and {y}");
    let each = [within(Excluded(x), Excluded(y)), within(Included(x), Excluded(y)), within(Excluded(x), Included(y)), within(Included(x), Included(y))];
    assert_eq!(each, [inner, from_low, to_high, both], "within {x} and {y}: neither, the first, the second and both included");
}

/// One left fraction, at its place in the list, beside each right one.
fn row(sorted: &[Reduced<i8>], place: usize) {
    let x = sorted[place];
    let mut inner = None;
    for (other, &y) in sorted.iter().enumerate() {
        arithmetic(sorted, x, y);
        comparison(x, y, place.cmp(&other));
        simplest(x, y, place.cmp(&other), inner);
        if place < other {
            inner = simpler(inner, y.into_raw());
        }
    }
}

/// The left fractions whose place leaves `rest` by 4: all or a few of them.
fn walk(rest: usize) {
    let sorted = sorted();
    assert_eq!(sorted.len(), 19_895);
    let all: Vec<usize> = (rest..sorted.len()).step_by(4).collect();
    let choice = std::env::var("BAKHSNEY_WALK").unwrap_or_else(|_| "1".into());
    if choice == "all" {
        all.into_iter().for_each(|place| row(&sorted, place));
    } else {
        let mut numbers = Numbers(choice.parse::<u64>().expect("BAKHSNEY_WALK is `all` or a number") + rest as u64);
        (0..FEW).for_each(|_| row(&sorted, all[numbers.below(all.len() as u64) as usize]));
    }
}

quarters! { walk first_quarter 0; second_quarter 1; third_quarter 2; fourth_quarter 3; }

/// Each fraction as the only bound, on either side.
#[test]
fn one_bound() {
    let sorted = sorted();
    let within = |low: Bound<Reduced<i8>>, high| Reduced::simplest_within(low, high).map(Reduced::into_raw);
    let mut below = None;
    for &x in &sorted {
        assert_eq!(within(Unbounded, Excluded(x)), below, "below {x}");
        below = simpler(below, x.into_raw());
        assert_eq!(within(Unbounded, Included(x)), below, "at most {x}");
    }
    let mut above = None;
    for &x in sorted.iter().rev() {
        assert_eq!(within(Excluded(x), Unbounded), above, "above {x}");
        above = simpler(above, x.into_raw());
        assert_eq!(within(Included(x), Unbounded), above, "at least {x}");
    }
    assert_eq!(within(Unbounded, Unbounded), Some((0, 1)));
}
