//! Each call on two fractions of `i8`, beside a model of whole numbers, by drawn pairs of fields.
//!
//! `walks.rs` has the checked calls for fractions in lowest terms. Here the fields may be reduced or not, over each denominator, also over
//! 0. And each way to call has a row: the operators with values and references, by a fraction and by a number, the traits, the folds.
//! `BAKHSNEY_WALK=SEED` draws other pairs, and a run with `BAKHSNEY_WALK=all` draws a hundred times as many.

// The tests are about these forms, and not every row names all of its arguments.
#![allow(unused_variables, clippy::op_ref, clippy::nonminimal_bool, clippy::neg_cmp_op_on_partial_ord, clippy::needless_borrows_for_generic_args)]

mod support;
#[path = "support/answers.rs"]
mod answers;

use answers::{or_panic, run, Answer, Answered, Fields};
use bakhsney::{Ratio, Reduced, Rounding};
use num_traits::{CheckedAdd, CheckedDiv, CheckedMul, CheckedRem, CheckedSub, Signed};
use std::cmp::Ordering;
use std::collections::hash_map::DefaultHasher;
use std::hash::{Hash, Hasher};
use std::ops::Bound::{self, Excluded, Included, Unbounded};
use support::Numbers;

/// How many pairs a short run draws in each test.
const FEW: usize = 600;

/// The fields of two fractions.
#[derive(Clone, Copy, Debug)]
struct Pair {
    left: Fields,
    right: Fields,
}

/// A call as a program writes it, what it returns, and what the model says.
type Row<X> = (&'static str, fn(X, X) -> Answer, fn(Pair) -> Answer);

macro_rules! rows {
    ($x:ident, $y:ident, $pair:ident: $($call:expr => $want:expr;)*) => {
        &[$((stringify!($call), |$x, $y| $call.answer(), |$pair| $want.answer())),*]
    };
}

// ---- the model

fn fits(number: i64) -> bool {
    i8::try_from(number).is_ok()
}

/// The fields divided by their greatest common divisor, with a positive denominator, if both fit.
fn lowest(numer: i64, denom: i64) -> Option<Fields> {
    let most = numer.abs().max(denom.abs());
    let divisor = (1..=most).rev().find(|divisor| numer % divisor == 0 && denom % divisor == 0)? * denom.signum();
    Some((numer, denom)).filter(|_| denom != 0).map(|(n, d)| (n / divisor, d / divisor)).filter(|&(n, d)| fits(n) && fits(d))
}

/// The fields if the denominator is positive, or else the lowest terms.
fn positive((numer, denom): Fields) -> Option<Fields> {
    if denom > 0 { Some((numer, denom)) } else { lowest(numer, denom) }
}

/// The order of the values.
fn order(pair: Pair) -> Option<Ordering> {
    let ((a, b), (c, d)) = (pair.left, pair.right);
    let order = (a * d).cmp(&(c * b));
    match (b * d).signum() {
        0 => None,
        1 => Some(order),
        _ => Some(order.reverse()),
    }
}

/// What the call makes of both numerators over the least common denominator, if these numbers fit.
fn over_one_denominator(pair: Pair, call: fn(i64, i64) -> Option<i64>) -> Option<Fields> {
    let ((a, b), (c, d)) = (positive(pair.left)?, positive(pair.right)?);
    let shared = (b..=127).step_by(b as usize).find(|n| n % d == 0)?;
    let (p, q) = (a * (shared / b), c * (shared / d));
    let result = call(p, q).filter(|&result| fits(p) && fits(q) && fits(result))?;
    lowest(result, shared)
}

fn sum(pair: Pair) -> Option<Fields> {
    over_one_denominator(pair, |p, q| Some(p + q))
}

fn difference(pair: Pair) -> Option<Fields> {
    over_one_denominator(pair, |p, q| Some(p - q))
}

fn product(pair: Pair) -> Option<Fields> {
    let ((a, b), (c, d)) = (positive(pair.left)?, positive(pair.right)?);
    lowest(a * c, b * d)
}

/// The product rounded to the nearest whole number, a half away from 0.
fn rounded_product(pair: Pair) -> Option<i8> {
    let ((a, b), (c, d)) = (positive(pair.left)?, positive(pair.right)?);
    let nearest = (2 * (a * c).abs() + b * d) / (2 * b * d);
    i8::try_from(nearest * (a * c).signum()).ok()
}

/// The product rounded to the nearest multiple of `1/parts`, a half away from 0. The parts are the left denominator.
fn product_to(pair: Pair) -> Option<Fields> {
    let ((a, b), (c, d)) = (positive(pair.left)?, positive(pair.right)?);
    let nearest = (2 * (a * c).abs() * b + b * d) / (2 * b * d);
    lowest(nearest * (a * c).signum(), b)
}

/// The greatest multiple of `1/parts` that is not above the quotient. The parts are the left denominator.
fn floored_quotient_to(pair: Pair) -> Option<Fields> {
    let ((a, b), (c, d)) = (positive(pair.left)?, pair.right);
    lowest((a * d * c.signum() * b).div_euclid(b * c.abs().max(1)), b).filter(|_| c != 0)
}

/// The greatest whole number that is not above the product.
fn floored_product(pair: Pair) -> Option<i8> {
    let ((a, b), (c, d)) = (positive(pair.left)?, positive(pair.right)?);
    i8::try_from((a * c).div_euclid(b * d)).ok()
}

/// The quotient rounded to the nearest whole number, a half away from 0.
fn rounded_quotient(pair: Pair) -> Option<i8> {
    let (c, d) = pair.right;
    rounded_product(Pair { right: (d * c.signum(), c.abs()), ..pair })
}

/// The greatest whole number that is not above the quotient.
fn floored_quotient(pair: Pair) -> Option<i8> {
    let (c, d) = pair.right;
    floored_product(Pair { right: (d * c.signum(), c.abs()), ..pair })
}

fn quotient(pair: Pair) -> Option<Fields> {
    let ((a, b), (c, d)) = (positive(pair.left)?, positive(pair.right)?);
    lowest(a * d, b * c)
}

/// The distance of two fractions that have lowest terms.
fn distance(pair: Pair) -> Option<Fields> {
    let ((a, b), (c, d)) = (lowest(pair.left.0, pair.left.1)?, lowest(pair.right.0, pair.right.1)?);
    lowest((a * d - c * b).abs(), b * d)
}

/// The middle of two fractions that have lowest terms.
fn middle(pair: Pair) -> Option<Fields> {
    let ((a, b), (c, d)) = (lowest(pair.left.0, pair.left.1)?, lowest(pair.right.0, pair.right.1)?);
    lowest(a * d + c * b, 2 * b * d)
}

/// The product of both and the left one again. No number on the way has to fit.
fn product_of_three(pair: Pair) -> Option<Fields> {
    let ((a, b), (c, d)) = (positive(pair.left)?, positive(pair.right)?);
    lowest(a * c * a, b * d * b)
}

/// The square of the left one divided by the right one.
fn square_over(pair: Pair) -> Option<Fields> {
    let ((a, b), (c, d)) = (positive(pair.left)?, positive(pair.right)?);
    lowest(a * a * d, b * b * c)
}

fn remainder(pair: Pair) -> Option<Fields> {
    over_one_denominator(pair, i64::checked_rem)
}

/// The five results of `Reduced`, which are exact.
fn exact(pair: Pair, call: fn(i64, i64) -> Option<i64>) -> Option<Fields> {
    let ((a, b), (c, d)) = (pair.left, pair.right);
    lowest(call(a * d, c * b)?, b * d)
}

/// The sum of the list of both and the left one again. Its partial sum need not fit.
fn sum_of_list(pair: Pair) -> Option<Fields> {
    let ((a, b), (c, d)) = (pair.left, pair.right);
    lowest(2 * a * d + c * b, b * d)
}

/// The greatest number that divides both.
fn common_divisor(m: i64, n: i64) -> i64 {
    if n == 0 { m.abs() } else { common_divisor(n, m % n) }
}

/// The least number above 0 that both divide, and 0 if one of them is 0.
fn common_multiple(m: i64, n: i64) -> i64 {
    if m == 0 || n == 0 { 0 } else { (m / common_divisor(m, n) * n).abs() }
}

/// The fold of the list of both and the left one again. It begins with this fraction.
fn folded(pair: Pair, start: Fields, step: fn(Pair) -> Option<Fields>) -> Option<Fields> {
    [pair.left, pair.right, pair.left].iter().try_fold(start, |left, &right| step(Pair { left, right }))
}

/// The bound with the fraction over a positive denominator, if there is one.
fn upright(bound: Bound<Fields>) -> Option<Bound<Fields>> {
    match bound {
        Included(fields) => positive(fields).map(Included),
        Excluded(fields) => positive(fields).map(Excluded),
        Unbounded => Some(Unbounded),
    }
}

/// The fraction within the bounds with the smallest denominator, and of these the one whose numerator is nearest to 0.
fn within(low: Bound<Fields>, high: Bound<Fields>) -> Option<Fields> {
    let (low, high) = (upright(low)?, upright(high)?);
    (1..=127).find_map(|denom| {
        let first = match low {
            Included((a, b)) => -(-a * denom).div_euclid(b),
            Excluded((a, b)) => (a * denom).div_euclid(b) + 1,
            Unbounded => -128,
        };
        let last = match high {
            Included((c, d)) => (c * denom).div_euclid(d),
            Excluded((c, d)) => -(-c * denom).div_euclid(d) - 1,
            Unbounded => 127,
        };
        let numer = 0.clamp(first.min(last), last.max(first));
        Some((numer, denom)).filter(|_| first <= last && fits(numer))
    })
}

impl Pair {
    /// The right fraction as its numerator alone.
    fn by_number(self) -> Pair {
        Pair { left: self.left, right: (self.right.0, 1) }
    }

    /// Whether the order is one of these.
    fn is(self, orders: &[Ordering]) -> Option<bool> {
        order(self).map(|order| orders.contains(&order))
    }

    /// The left fraction if the order is one of these, or else the right one.
    fn chosen(self, orders: &[Ordering]) -> Answer {
        or_panic(self.is(orders).map(|is_left| if is_left { self.left } else { self.right }))
    }

    /// 0 if the left fraction is not above the right one, or else the difference.
    fn excess(self) -> Option<Fields> {
        if order(self)? == Ordering::Greater { difference(self) } else { Some((0, 1)) }
    }
}

fn hash_of(x: impl Hash) -> u64 {
    let mut state = DefaultHasher::new();
    x.hash(&mut state);
    state.finish()
}

fn assigned(mut x: Ratio<i8>, assign: impl FnOnce(&mut Ratio<i8>)) -> Ratio<i8> {
    assign(&mut x);
    x
}

const LESS: &[Ordering] = &[Ordering::Less];
const EQUAL: &[Ordering] = &[Ordering::Equal];
const GREATER: &[Ordering] = &[Ordering::Greater];
const AT_MOST: &[Ordering] = &[Ordering::Less, Ordering::Equal];
const AT_LEAST: &[Ordering] = &[Ordering::Greater, Ordering::Equal];

// ---- the tables

// An operator in each form, its assigning forms, and its checked call.
macro_rules! operator {
    ($name:ident: $op:tt $assign:tt $checked:ident $model:ident) => {
        const $name: &[Row<Ratio<i8>>] = rows! { x, y, p:
            x.$checked(&y) => $model(p);
            x $op y => or_panic($model(p));
            x $op &y => or_panic($model(p));
            &x $op y => or_panic($model(p));
            &x $op &y => or_panic($model(p));
            assigned(x, |x| *x $assign y) => or_panic($model(p));
            assigned(x, |x| *x $assign &y) => or_panic($model(p));
            x $op *y.numer() => or_panic($model(p.by_number()));
            x $op y.numer() => or_panic($model(p.by_number()));
            &x $op *y.numer() => or_panic($model(p.by_number()));
            &x $op y.numer() => or_panic($model(p.by_number()));
            assigned(x, |x| *x $assign *y.numer()) => or_panic($model(p.by_number()));
            assigned(x, |x| *x $assign y.numer()) => or_panic($model(p.by_number()));
        };
    };
}

operator! { SUM: + += checked_add sum }
operator! { DIFFERENCE: - -= checked_sub difference }
operator! { PRODUCT: * *= checked_mul product }
operator! { QUOTIENT: / /= checked_div quotient }
operator! { REMAINDER: % %= checked_rem remainder }

const OTHERS: &[Row<Ratio<i8>>] = rows! { x, y, p:
    x.cmp(&y) => or_panic(order(p));
    x.partial_cmp(&y) => order(p);
    x == y => or_panic(p.is(EQUAL));
    x != y => or_panic(p.is(EQUAL).map(|is_equal| !is_equal));
    x < y => or_panic(p.is(LESS));
    x <= y => or_panic(p.is(AT_MOST));
    x > y => or_panic(p.is(GREATER));
    x >= y => or_panic(p.is(AT_LEAST));
    hash_of(x) == hash_of(y) => or_panic(p.is(EQUAL));
    x.max(y) => p.chosen(GREATER);
    x.min(y) => p.chosen(AT_MOST);
    x.abs_sub(&y) => or_panic(p.excess());
    x.checked_abs_diff(&y) => distance(p);
    x.checked_midpoint(&y) => middle(p);
    Ratio::<i8>::const_new(*x.numer(), *y.denom()) => or_panic(lowest(p.left.0, p.right.1));

    Reduced::from_ratio(&x).map(|x| x == y) => lowest(p.left.0, p.left.1).map(|_| p.is(EQUAL) == Some(true));
    Reduced::from_ratio(&x).map(|x| x < y) => lowest(p.left.0, p.left.1).map(|_| p.is(LESS) == Some(true));
    Reduced::from_ratio(&x).map(|x| x.partial_cmp(&y)) => lowest(p.left.0, p.left.1).map(|_| order(p));

    [x, y, x].iter().sum::<Ratio<i8>>() => or_panic(folded(p, (0, 1), sum));
    [x, y, x].iter().copied().sum::<Ratio<i8>>() => or_panic(folded(p, (0, 1), sum));
    [x, y, x].iter().product::<Ratio<i8>>() => or_panic(folded(p, (1, 1), product));
    [x, y, x].iter().copied().product::<Ratio<i8>>() => or_panic(folded(p, (1, 1), product));
    [x].iter().sum::<Ratio<i8>>() => or_panic(sum(Pair { left: (0, 1), right: p.left }));
    [y].iter().product::<Ratio<i8>>() => or_panic(product(Pair { left: (1, 1), right: p.right }));
};

// A checked call of `Reduced` with each kind of operand.
macro_rules! checked {
    ($name:ident: $checked:ident $call:expr) => {
        const $name: &[Row<Reduced<i8>>] = rows! { x, y, p:
            x.$checked(y) => exact(p, $call);
            x.$checked(&y) => exact(p, $call);
            x.$checked(*y.numer()) => exact(p.by_number(), $call);
            x.$checked(y.numer()) => exact(p.by_number(), $call);
        };
    };
}

checked! { REDUCED_SUM: checked_add |p, q| Some(p + q) }
checked! { REDUCED_DIFFERENCE: checked_sub |p, q| Some(p - q) }
checked! { REDUCED_REMAINDER: checked_rem |p, q| p.checked_rem(q) }
checked! { REDUCED_DIVISOR: checked_gcd |p, q| Some(common_divisor(p, q)) }
checked! { REDUCED_MULTIPLE: checked_lcm |p, q| Some(common_multiple(p, q)) }

const REDUCED: &[Row<Reduced<i8>>] = rows! { x, y, p:
    x.checked_mul(y) => product(p);
    x.checked_mul(&y) => product(p);
    x.checked_mul(*y.numer()) => product(p.by_number());
    x.checked_mul(y.numer()) => product(p.by_number());
    x.checked_mul_round(y, Rounding::HalfAway) => rounded_product(p);
    x.checked_mul_round(&y, Rounding::Floor) => floored_product(p);
    x.checked_mul_round(*y.numer(), Rounding::HalfAway) => rounded_product(p.by_number());
    x.checked_mul_round(y.numer(), Rounding::Floor) => floored_product(p.by_number());
    x.checked_div_round(y, Rounding::HalfAway) => rounded_quotient(p);
    x.checked_div_round(&y, Rounding::Floor) => floored_quotient(p);
    x.checked_div_round(*y.numer(), Rounding::HalfAway) => rounded_quotient(p.by_number());
    x.checked_div_round(y.numer(), Rounding::Floor) => floored_quotient(p.by_number());
    x.checked_mul_round_to(y, *x.denom(), Rounding::HalfAway) => product_to(p);
    x.checked_mul_round_to(&y, *x.denom(), Rounding::HalfAway) => product_to(p);
    x.checked_mul_round_to(*y.numer(), *x.denom(), Rounding::HalfAway) => product_to(p.by_number());
    x.checked_mul_round_to(y.numer(), *x.denom(), Rounding::HalfAway) => product_to(p.by_number());
    x.checked_div_round_to(y, *x.denom(), Rounding::Floor) => floored_quotient_to(p);
    x.checked_div_round_to(&y, *x.denom(), Rounding::Floor) => floored_quotient_to(p);
    x.checked_div_round_to(*y.numer(), *x.denom(), Rounding::Floor) => floored_quotient_to(p.by_number());
    x.checked_div_round_to(y.numer(), *x.denom(), Rounding::Floor) => floored_quotient_to(p.by_number());
    x.checked_div(y) => quotient(p);
    x.checked_div(&y) => quotient(p);
    x.checked_div(*y.numer()) => quotient(p.by_number());
    x.checked_div(y.numer()) => quotient(p.by_number());

    x.cmp(&y) => order(p);
    x.partial_cmp(&y) => order(p);
    x == y => p.is(EQUAL);
    x != y => p.is(EQUAL).map(|is_equal| !is_equal);
    x < y => p.is(LESS);
    x >= y => p.is(AT_LEAST);
    x.max(y) => p.chosen(AT_LEAST);
    x.min(y) => p.chosen(AT_MOST);
    hash_of(x) == hash_of(y) => p.is(EQUAL);
    x == *y.numer() => p.by_number().is(EQUAL);
    x <= *y.numer() => p.by_number().is(AT_MOST);
    x.partial_cmp(y.numer()) => order(p.by_number());

    Reduced::<i8>::checked_sum([x, y, x]) => sum_of_list(p);
    Reduced::<i8>::checked_sum(&[x, y, x]) => sum_of_list(p);
    Reduced::<i8>::checked_product([x, y, x]) => product_of_three(p);
    Reduced::<i8>::checked_product(&[x, y, x]) => product_of_three(p);
    Reduced::<i8>::checked_quotient_of([x, x], [y]) => square_over(p);
    [x, y, x].iter().sum::<Option<Reduced<i8>>>() => sum_of_list(p);
    [x, y, x].iter().copied().sum::<Option<Reduced<i8>>>() => sum_of_list(p);
    [x, y, x].iter().product::<Option<Reduced<i8>>>() => product_of_three(p);
    [x, y, x].iter().copied().product::<Option<Reduced<i8>>>() => product_of_three(p);
};

// The simplest fraction, with each kind of bound on each side.
macro_rules! simplest {
    ($name:ident: $Type:ident) => {
        const $name: &[Row<$Type<i8>>] = rows! { x, y, p:
            $Type::simplest_between(&x, &y) => within(Excluded(p.left), Excluded(p.right));
            $Type::simplest_within(Excluded(x), Excluded(y)) => within(Excluded(p.left), Excluded(p.right));
            $Type::simplest_within(Excluded(x), Included(y)) => within(Excluded(p.left), Included(p.right));
            $Type::simplest_within(Included(x), Excluded(y)) => within(Included(p.left), Excluded(p.right));
            $Type::simplest_within(Included(x), Included(y)) => within(Included(p.left), Included(p.right));
            $Type::simplest_within(Included(x), Included(x)) => within(Included(p.left), Included(p.left));
            $Type::simplest_within(Excluded(x), Unbounded) => within(Excluded(p.left), Unbounded);
            $Type::simplest_within(Included(x), Unbounded) => within(Included(p.left), Unbounded);
            $Type::simplest_within(Unbounded, Excluded(y)) => within(Unbounded, Excluded(p.right));
            $Type::simplest_within(Unbounded, Included(y)) => within(Unbounded, Included(p.right));
            $Type::<i8>::simplest_within(Unbounded, Unbounded) => (0i8, 1);
        };
    };
}

simplest! { RATIO_SIMPLEST: Ratio }
simplest! { REDUCED_SIMPLEST: Reduced }

// ---- the walks

fn compared<X: Copy>(rows: &[Row<X>], x: X, y: X, pair: Pair) {
    for (call, returned, model) in rows {
        assert_eq!(run(|| returned(x, y)), model(pair), "{call} of {pair:?}");
    }
}

/// Two pairs of fields: of small numbers or of any ones, sometimes the same value twice.
fn drawn(numbers: &mut Numbers) -> Pair {
    let mut number = || {
        let size = [4, 12, 30, 256][numbers.below(4) as usize];
        numbers.below(size) as i64 - size as i64 / 2
    };
    let (left, right) = ((number(), number()), (number(), number()));
    let factor = [-2, -1, 1, 2, 3][numbers.below(5) as usize];
    let multiple = (left.0 * factor, left.1 * factor);
    let is_multiple = numbers.below(8) == 0 && fits(multiple.0) && fits(multiple.1);
    Pair { left, right: if is_multiple { multiple } else { right } }
}

fn walk(seed: u64, compare: fn(Pair)) {
    let choice = std::env::var("BAKHSNEY_WALK").unwrap_or_else(|_| "1".into());
    let (first, count) = if choice == "all" { (1, 100 * FEW) } else { (choice.parse::<u64>().expect("BAKHSNEY_WALK is `all` or a number"), FEW) };
    let mut numbers = Numbers(first + seed);
    (0..count).for_each(|_| compare(drawn(&mut numbers)));
}

fn ratio((numer, denom): Fields) -> Ratio<i8> {
    Ratio::new_raw(numer as i8, denom as i8)
}

fn reduced((numer, denom): Fields) -> Reduced<i8> {
    Reduced::checked_new(numer as i8, denom as i8).unwrap()
}

#[test]
fn operators_of_ratio() {
    walk(0, |pair| [SUM, DIFFERENCE, PRODUCT, QUOTIENT, REMAINDER].iter().for_each(|rows| compared(rows, ratio(pair.left), ratio(pair.right), pair)));
}

#[test]
fn other_calls_of_ratio() {
    walk(1, |pair| [OTHERS, RATIO_SIMPLEST].iter().for_each(|rows| compared(rows, ratio(pair.left), ratio(pair.right), pair)));
}

#[test]
fn calls_of_reduced() {
    walk(2, |pair| {
        if let (Some(left), Some(right)) = (lowest(pair.left.0, pair.left.1), lowest(pair.right.0, pair.right.1)) {
            let pair = Pair { left, right };
            [REDUCED_SUM, REDUCED_DIFFERENCE, REDUCED_REMAINDER, REDUCED_DIVISOR, REDUCED_MULTIPLE, REDUCED, REDUCED_SIMPLEST].iter().for_each(|rows| compared(rows, reduced(left), reduced(right), pair));
        }
    });
}
