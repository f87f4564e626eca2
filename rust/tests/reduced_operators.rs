//! The operators of `Reduced` return what the checked calls return, and panic exactly where these are `None`, with the texts of `Ratio`.

// The tests are about these forms.
#![allow(clippy::op_ref)]

#[path = "support/outcomes.rs"]
mod outcomes;

use bakhsney::integer::Integer;
use bakhsney::{Ratio, Reduced, Reduced64};
use num_traits::{Bounded, CheckedAdd, CheckedEuclid, CheckedMul, CheckedSub, Euclid, FromPrimitive, Inv, Num, NumAssignRef, One, Pow, Signed, Zero};
use outcomes::{outcome, quietly};

/// The fractions of these numbers that are in lowest terms.
fn fractions<T: Integer>(numbers: &[T]) -> Vec<Reduced<T>> {
    let pairs = numbers.iter().flat_map(|&numer| numbers.iter().map(move |&denom| (numer, denom)));
    pairs.filter_map(|(numer, denom)| Reduced::checked_new(numer, denom).filter(|x| x.into_raw() == (numer, denom))).collect()
}

// Each operator beside its checked call, and beside the operator of `Ratio`: the value or the text of its panic.
macro_rules! compare {
    ($x:ident, $y:ident: $($op:tt $assign:tt $checked:ident;)*) => {$(
        let found = outcome(|| $x $op $y);
        assert_eq!(found.as_ref().ok().copied(), $x.$checked($y), "{} {} {}", $x, stringify!($op), $y);
        assert_eq!(found, outcome(|| &$x $op &$y));
        assert_eq!(found, outcome(|| $x $op &$y));
        assert_eq!(found, outcome(|| &$x $op $y));
        assert_eq!(found, outcome(|| {
            let mut z = $x;
            z $assign $y;
            z
        }));
        assert_eq!(found, outcome(|| {
            let mut z = $x;
            z $assign &$y;
            z
        }));
        if let Err(text) = &found {
            let by_ratio = outcome(|| $x.to_ratio() $op $y.to_ratio());
            assert!(by_ratio.is_ok() || by_ratio.unwrap_err() == *text, "{} {} {}: {text}", $x, stringify!($op), $y);
        }
        if $y.is_integer() {
            let number = *$y.numer();
            assert_eq!(found, outcome(|| $x $op number));
            assert_eq!(found, outcome(|| &$x $op &number));
        }
        if $x.is_integer() {
            let number = *$x.numer();
            assert_eq!(found, outcome(|| number $op $y));
            assert_eq!(found, outcome(|| &number $op &$y));
            assert_eq!(found, outcome(|| number $op &$y));
            assert_eq!(found, outcome(|| &number $op $y));
        }
    )*};
}

#[test]
fn operators_are_checked_calls() {
    quietly(|| {
        let all = fractions::<i8>(&[-128, -127, -64, -5, -2, -1, 0, 1, 2, 3, 5, 64, 127]);
        for &x in &all {
            for &y in &all {
                compare! { x, y: + += checked_add; - -= checked_sub; * *= checked_mul; / /= checked_div; % %= checked_rem; }
                assert_eq!(CheckedAdd::checked_add(&x, &y), x.checked_add(y));
                assert_eq!(CheckedSub::checked_sub(&x, &y), x.checked_sub(y));
                assert_eq!(CheckedMul::checked_mul(&x, &y), x.checked_mul(y));
                let quotient = outcome(|| x.div_euclid(&y));
                assert_eq!(quotient.clone().ok(), x.checked_div_euclid(&y));
                assert_eq!(quotient.ok().map(Ratio::from), x.to_ratio().checked_div_euclid(&y.to_ratio()));
                assert_eq!(outcome(|| x.rem_euclid(&y)).ok(), x.checked_rem_euclid(&y));
                if let (Some(quotient), Some(rest)) = (x.checked_div_euclid(&y), x.checked_rem_euclid(&y)) {
                    let (quotient, rest, x, y) = (wide(quotient), wide(rest), wide(x), wide(y));
                    assert!(quotient * y + rest == x && rest >= 0 && rest < y.abs(), "{x} by {y}: {quotient}, {rest}");
                }
            }
            assert_eq!(outcome(|| -x).ok(), x.checked_neg());
            assert_eq!(outcome(|| -&x).ok(), x.checked_neg());
            assert_eq!(outcome(|| x.abs()).ok(), x.checked_abs());
            assert_eq!(outcome(|| x.inv()), outcome(|| (&x).inv()));
            assert_eq!(outcome(|| x.inv()).ok(), x.checked_recip());
            for exponent in [-128i8, -8, -7, -2, -1, 0, 1, 2, 7, 8, 127] {
                assert_eq!(outcome(|| x.pow(exponent)).ok(), x.checked_pow(exponent.into()), "{x} to the {exponent}");
                assert_eq!(outcome(|| x.pow(i128::from(exponent))).ok(), x.checked_pow(exponent.into()));
                assert_eq!(outcome(|| (&x).pow(&exponent)).ok(), x.checked_pow(exponent.into()));
            }
        }
    });
}

fn wide(x: Reduced<i8>) -> Reduced64 {
    x.cast().unwrap()
}

#[test]
fn panics_have_texts() {
    quietly(|| {
        let (most, least, zero) = (Reduced::from(127i8), Reduced::from(-128i8), Reduced::<i8>::ZERO);
        assert_eq!(outcome(|| most + 1), Err("attempt to add with overflow".into()));
        assert_eq!(outcome(|| least - 1), Err("attempt to subtract with overflow".into()));
        assert_eq!(outcome(|| 2 * most), Err("attempt to multiply with overflow".into()));
        assert_eq!(outcome(|| most / 0), Err("denominator == 0".into()));
        assert_eq!(outcome(|| most % zero), Err("attempt to calculate the remainder with a divisor of zero".into()));
        assert_eq!(outcome(|| -least), Err("attempt to negate with overflow".into()));
        assert_eq!(outcome(|| Reduced::new(1i8, 0)), Err("denominator == 0".into()));
        assert_eq!(outcome(|| Reduced::new(1i8, -128)), Err("attempt to negate with overflow".into()));
        assert_eq!(outcome(|| Reduced::new(2i8, -128).recip()), Ok(Reduced::from(-64)));
        assert_eq!(outcome(|| zero.recip()), Err("division by zero".into()));
        assert_eq!(outcome(|| zero.inv()), Err("division by zero".into()));
        assert_eq!(outcome(|| least.inv()), Err("attempt to negate with overflow".into()));
        assert_eq!(outcome(|| zero.pow(-1)), Err("division by zero".into()));
        assert_eq!(outcome(|| most.pow(2u64)), Err("attempt to multiply with overflow".into()));
        assert_eq!(outcome(|| [most, most].iter().sum::<Reduced<i8>>()), Err("attempt to add with overflow".into()));
        assert_eq!(outcome(|| [most, most].iter().product::<Reduced<i8>>()), Err("attempt to multiply with overflow".into()));
    });
}

#[test]
fn sums_and_products_are_those_of_lists() {
    let steps = [(127i8, 1), (1, 127), (-1, 127)].map(|(numer, denom)| Reduced::checked_new(numer, denom).unwrap());
    assert_eq!(steps[1..].iter().sum::<Reduced<i8>>(), 0);
    assert_eq!(steps.into_iter().sum::<Reduced<i8>>(), 127);
    assert_eq!([1i64, 2, 3].into_iter().sum::<Reduced64>(), 6);
    assert_eq!([1i64, 2, 3].iter().product::<Reduced64>(), 6);
    assert_eq!(steps.into_iter().sum::<Option<Reduced<i8>>>(), Some(127.into()));
}

// A determinant as a generic library has it.
fn determinant<N: Clone + Signed + NumAssignRef>(mut rows: Vec<Vec<N>>) -> N {
    let mut product = N::one();
    for column in 0..rows.len() {
        let pivot = match (column..rows.len()).find(|&row| !rows[row][column].is_zero()) {
            Some(pivot) => pivot,
            None => return N::zero(),
        };
        if pivot != column {
            rows.swap(pivot, column);
            product = -product;
        }
        let first = rows[column].clone();
        product *= &first[column];
        for row in &mut rows[column + 1..] {
            let factor = row[column].clone() / first[column].clone();
            for (number, above) in row.iter_mut().zip(&first).skip(column) {
                let mut part = factor.clone();
                part *= above;
                *number -= &part;
            }
        }
    }
    product
}

#[test]
fn generic_code_takes_it() {
    let rows = |numbers: [[i64; 3]; 3]| numbers.map(|row| row.map(|number| Reduced64::checked_new(number, 7).unwrap()).to_vec()).to_vec();
    assert_eq!(determinant(rows([[0, 2, 3], [4, 5, 6], [7, 8, 10]])), Reduced64::checked_new(-5, 343).unwrap());
    assert_eq!(determinant(rows([[1, 2, 3], [2, 4, 6], [7, 8, 10]])), Reduced64::zero());
    assert_eq!(Reduced64::max_value(), i64::MAX);
    assert_eq!(Reduced64::min_value(), i64::MIN);
    assert!(Reduced64::one().is_one() && Reduced64::zero().is_zero());
    assert_eq!(<Reduced64 as Num>::from_str_radix("f/2", 16), Ok(Reduced64::checked_new(15, 2).unwrap()));
    assert_eq!(<Reduced<i8> as FromPrimitive>::from_i64(128), None);
    assert_eq!(<Reduced<i8> as FromPrimitive>::from_u128(127), Some(127.into()));
    assert_eq!(Reduced64::from_f64(0.1), Reduced64::checked_new(1, 10));
    assert_eq!(Signed::abs_sub(&Reduced64::from(1), &Reduced64::from(3)), 0);
    assert_eq!(Signed::abs_sub(&Reduced64::from(3), &Reduced64::from(1)), 2);
    assert_eq!(Signed::signum(&Reduced64::from(-3)), -1);
    assert!(Signed::is_negative(&Reduced64::from(-3)) && !Signed::is_positive(&Reduced64::zero()));
}
