//! The names that generic code and glob imports bring: none is in the way of a program's own, and none gives a warning.
#![deny(warnings)]

/// Imports of all names beside num-integer's. The `gcd` is num-integer's.
mod globs {
    use bakhsney::*;
    use num_integer::*;

    #[test]
    fn beside_num_integer() {
        assert_eq!(Ratio::new(6.gcd(&4), 4), Ratio::new(1, 2));
        assert!(Reduced::from(6.lcm(&4)).is_integer());
    }
}

/// A program's trait with names that this crate's layer uses, too.
mod own_names {
    use bakhsney::integer::Integer;

    trait Own {
        type Proved;
        type Signs;
        const NUMBER_0: u8;
        const NUMBER_1: u8;
        fn of(self) -> u8;
        fn into_proved(self) -> u8;
        fn from_proved(n: u8) -> Self;
    }

    impl Own for i32 {
        type Proved = u8;
        type Signs = u16;
        const NUMBER_0: u8 = 10;
        const NUMBER_1: u8 = 11;

        fn of(self) -> u8 {
            12
        }

        fn into_proved(self) -> u8 {
            13
        }

        fn from_proved(n: u8) -> i32 {
            n.into()
        }
    }

    fn own<T: Integer + Own<Proved = u8, Signs = u16>>(x: T) -> ([u8; 4], T, T::Proved, T::Signs) {
        ([T::NUMBER_0, T::NUMBER_1, x.of(), x.into_proved()], T::from_proved(14), 15, 16)
    }

    #[test]
    fn beside_the_hidden_names() {
        assert_eq!(own(1), ([10, 11, 12, 13], 14, 15, 16));
    }
}

/// Code that was generic over num-integer's trait, and now names this crate's.
mod generic {
    use bakhsney::{integer::Integer, Ratio};

    fn mean<T: Integer>(x: Ratio<T>, y: Ratio<T>) -> Ratio<T> {
        (x + y) / (T::one() + T::one())
    }

    /// The calls of num-integer's trait need its name beside.
    fn on_one_wheel<T: Integer + num_integer::Integer>(x: Ratio<T>, y: Ratio<T>) -> T {
        x.denom().lcm(y.denom())
    }

    #[test]
    fn over_each_trait() {
        assert_eq!(mean(Ratio::new(1, 2), Ratio::new(1, 3)), Ratio::new(5, 12));
        assert_eq!(on_one_wheel(Ratio::new(1u8, 4), Ratio::new(1, 6)), 12);
    }
}
