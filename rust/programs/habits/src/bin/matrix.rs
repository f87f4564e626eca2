//! Matrices over any ring: Fibonacci's numbers, and the weather as a chain.

use num_rational::Ratio;
use num_traits::{One, Zero};
use std::ops::{Add, Mul};

#[derive(Debug, Clone, Copy, PartialEq)]
struct Matrix<T>([[T; 2]; 2]);

impl<T: Copy + Add<Output = T> + Mul<Output = T>> Mul for Matrix<T> {
    type Output = Self;
    fn mul(self, other: Self) -> Self {
        let (Matrix(a), Matrix(b)) = (self, other);
        let cell = |row: usize, column: usize| a[row][0] * b[0][column] + a[row][1] * b[1][column];
        Matrix([[cell(0, 0), cell(0, 1)], [cell(1, 0), cell(1, 1)]])
    }
}

impl<T: Copy + Zero + One> One for Matrix<T> {
    fn one() -> Self {
        Matrix([[T::one(), T::zero()], [T::zero(), T::one()]])
    }
}

fn main() {
    let step = Matrix([[1u64, 1], [1, 0]]);
    assert_eq!(num_traits::pow(step, 50).0[0][1], 12_586_269_025);

    let half = Ratio::new(1i64, 2);
    let weather = Matrix([[Ratio::new(9, 10), Ratio::new(1, 10)], [half, half]]);
    assert_eq!(num_traits::pow(weather, 0), Matrix::one());
    for days in [1, 2, 4, 8] {
        let Matrix([[sun, rain], _]) = num_traits::pow(weather, days);
        assert!((sun + rain).is_one());
        println!("after {days} days: sun {sun}, rain {rain}");
    }
    let Matrix([[sun, _], [after_rain, _]]) = num_traits::pow(weather, 4);
    assert_eq!(sun, Ratio::new(2094, 2500));
    assert_eq!(after_rain, Ratio::new(203, 250));

    let slope = Matrix([[Ratio::from(1), half], [Ratio::zero(), Ratio::one()]]);
    assert_eq!(num_traits::pow(slope, 7).0[0][1], half * 7);
}
