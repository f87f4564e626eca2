//! A determinant by Gauss's elimination, once for every exact type.

use num_rational::{BigFraction, Ratio, Reduced64};
use num_traits::{NumAssignRef, Signed};

fn determinant<T: Signed + NumAssignRef + Clone>(mut rows: Vec<Vec<T>>) -> T {
    let size = rows.len();
    let mut product = T::one();
    for column in 0..size {
        let pivot = match (column..size).find(|&row| !rows[row][column].is_zero()) {
            Some(row) => row,
            None => return T::zero(),
        };
        if pivot != column {
            rows.swap(pivot, column);
            product = -product;
        }
        let upper = rows[column].clone();
        product *= &upper[column];
        for row in &mut rows[column + 1..] {
            let mut factor = row[column].clone();
            factor /= &upper[column];
            for (cell, above) in row.iter_mut().zip(&upper) {
                *cell -= above.clone() * factor.clone();
            }
        }
    }
    product
}

fn hilbert<T>(size: i64, fraction: impl Fn(i64, i64) -> T) -> Vec<Vec<T>> {
    (1..=size).map(|row| (0..size).map(|column| fraction(1, row + column)).collect()).collect()
}

fn main() {
    assert_eq!(determinant(hilbert(4, Ratio::<i64>::new)), Ratio::new(1, 6_048_000));
    assert_eq!(determinant(hilbert(4, Reduced64::new)), Reduced64::new(1, 6_048_000));

    // Typed: `let eight = determinant(hilbert(8, |n, d| BigFraction::from(Ratio::new(n, d))));`. A `Ratio` may have the denominator 0, so it is converted by `try_from`.
    let eight = determinant(hilbert(8, BigFraction::new));
    println!("{eight}");
    assert_eq!(eight.to_string(), "1/365356847125734485878112256000000");
    assert!(eight > BigFraction::from(0));

    let swapped = vec![
        vec![Reduced64::from(0), 2.into(), 1.into()],
        vec![Reduced64::new(1, 2), 1.into(), 3.into()],
        vec![4.into(), Reduced64::from(-1), Reduced64::new(1, 3)],
    ];
    assert_eq!(determinant(swapped), Reduced64::new(115, 6));
    assert_eq!(determinant(vec![vec![Reduced64::from(1); 2]; 2]), 0);
}
