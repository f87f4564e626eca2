//! The cases that num-rational's own tests have, written anew as rows, except those of its private functions and those that need big
//! integers. Each row runs with both crates. `from_floats.rs` has those of `from_float`, which is for big integers there.

// The rows are about these forms.
#![allow(clippy::eq_op, clippy::op_ref, clippy::nonminimal_bool, clippy::redundant_clone, clippy::clone_on_copy)]
#![allow(clippy::modulo_one, clippy::assign_op_pattern, clippy::possible_missing_comma)]

// The operator by a fraction and by a whole number, its assigning forms, and its checked call.
macro_rules! operator {
    ($op:tt $assign:tt $checked:expr, [$(($x:expr, $y:expr, $want:expr)),*], ($left:expr, $number:expr, $result:expr)) => {
        for (x, y, want) in [$(($x, $y, $want)),*] {
            let (mut assigned, checked) = (x, $checked);
            assigned $assign y;
            assert_eq!((x $op y, assigned), (want, want), "{x} {} {y}", stringify!($op));
            assert_eq!(checked(&x, &y), Some(want), "{x} {} {y}", stringify!($op));
        }
        let mut assigned: Fraction = $left;
        assigned $assign $number;
        assert_eq!([$left $op $number, assigned], [$result; 2]);
    };
}

macro_rules! rows {
    () => {
        use num_traits::{Bounded, CheckedAdd, CheckedDiv, CheckedMul, CheckedSub, FromPrimitive, NumAssign, One, Pow, Signed, ToPrimitive, Zero};
        use std::cmp::Ordering;
        use std::collections::hash_map::DefaultHasher;
        use std::fmt::Debug;
        use std::hash::{Hash, Hasher};

        type Fraction = Ratio<i64>;

        const fn raw(numer: i64, denom: i64) -> Fraction {
            Ratio::new_raw(numer, denom)
        }

        const ZERO: Fraction = raw(0, 1);
        const ONE: Fraction = raw(1, 1);
        const HALF: Fraction = raw(1, 2);
        const THREE_HALVES: Fraction = raw(3, 2);
        const MINUS_HALF: Fraction = raw(-1, 2);
        const LEAST: Fraction = raw(i64::MIN, 1);
        const MOST: Fraction = raw(i64::MAX, 1);

        #[test]
        fn constants() {
            assert_eq!([ZERO, ONE, raw(2, 1), raw(2, 1)], [Zero::zero(), One::one(), Ratio::from_integer(2), From::from(2)]);
            assert_eq!([HALF, THREE_HALVES, MINUS_HALF], [Ratio::new(1, 2), Ratio::new(3, 2), Ratio::new(-1, 2)]);
        }

        #[test]
        fn new_reduces() {
            assert_eq!([Ratio::new(2, 2), Ratio::new(i32::MIN, i32::MIN)], [One::one(); 2]);
            assert_eq!(Ratio::new(0, i32::MIN), Zero::zero());
        }

        #[test]
        #[should_panic]
        fn new_of_denominator_0() {
            let _ = Ratio::new(1, 0);
        }

        #[test]
        fn approximations_of_floats() {
            assert_eq!([0.5, 5.0, 29.97, -29.97].map(Ratio::from_f32), [(1i64, 2), (5, 1), (2997, 100), (-2997, 100)].map(|x| Some(Ratio::from(x))));
            assert_eq!([0.5, 5.0].map(Ratio::from_f64), [(1i32, 2), (5, 1)].map(|x| Some(Ratio::from(x))));
            let rows = [(63.5f32, (127i8, 2)), (126.5, (126, 1)), (127.0, (127, 1)), (-63.5, (-127, 2)), (-126.5, (-126, 1)), (-127.0, (-127, 1))];
            for (float, fields) in rows {
                assert_eq!(Ratio::from_f32(float), Some(Ratio::from(fields)), "{float}");
            }
            assert_eq!([127.5, -127.5].map(Ratio::<i8>::from_f32), [None; 2]);
            assert_eq!([-127.0, 127.0, 127.5, 256.0].map(Ratio::from_f32), [None, Some(Ratio::new(127u8, 1)), Some(Ratio::new(255, 2)), None]);
            assert_eq!([-10e200, 10e200, f64::INFINITY, f64::NEG_INFINITY, f64::NAN].map(Fraction::from_f64), [None; 5]);
            assert_eq!([f64::EPSILON, 0.0, -0.0].map(Ratio::from_f64), [Some(raw(1, 1 << 52)), Some(ZERO), Some(ZERO)]);
        }

        #[test]
        fn comparisons() {
            assert!(ZERO == ZERO && ONE == ONE && ZERO != ONE && ONE != ZERO && ZERO == raw(0, 2));
            assert!(ZERO < ONE && !(ONE < ZERO) && ONE > ZERO && !(ZERO > ONE));
            assert!(ZERO <= ZERO && ONE <= ONE && ZERO <= ONE && !(ONE <= ZERO));
            assert!(ZERO >= ZERO && ONE >= ONE && ONE >= ZERO && !(ZERO >= ONE));
        }

        #[test]
        fn comparisons_of_large_fields() {
            assert!(Ratio::new(128u8, 1) > Ratio::new(128u8, 1).recip());
            let ascending = [(125i8, 127), (63, 64), (124, 125), (125, 126), (126, 127), (127, 126)].map(Ratio::from);
            for (i, &x) in ascending.iter().enumerate() {
                for (j, &y) in ascending.iter().enumerate() {
                    assert_eq!([x.cmp(&y), (-y).cmp(&-x)], [i.cmp(&j); 2], "{x} and {y}");
                    assert_eq!([y.recip().cmp(&x.recip()), (-x.recip()).cmp(&-y.recip())], [i.cmp(&j); 2], "{x} and {y}");
                    assert_eq!((-x).cmp(&y), Ordering::Less, "{x} and {y}");
                }
            }
        }

        #[test]
        fn to_integer_numer_denom_is_integer() {
            let rows = [(ZERO, 0, 0, 1), (ONE, 1, 1, 1), (raw(2, 1), 2, 2, 1), (HALF, 0, 1, 2), (THREE_HALVES, 1, 3, 2), (MINUS_HALF, 0, -1, 2)];
            for (x, whole, numer, denom) in rows {
                assert_eq!((x.to_integer(), x.numer(), x.denom(), x.is_integer()), (whole, &numer, &denom, denom == 1), "{x}");
            }
        }

        #[test]
        fn texts_of_decimal_and_binary() {
            let (two, small) = (raw(2, 1), Ratio::new(1i8, 2));
            assert_eq!([format!("{two}"), format!("{two:+}"), format!("{two:-}"), format!("{ZERO}")], ["2", "+2", "2", "0"]);
            assert_eq!([format!("{HALF}"), format!("{MINUS_HALF}"), format!("{}", -two), format!("{:+}", -two)], ["1/2", "-1/2", "-2", "-2"]);
            assert_eq!([format!("{two:b}"), format!("{two:#b}"), format!("{ZERO:b}"), format!("{HALF:b}")], ["10", "0b10", "0", "1/10"]);
            assert_eq!([format!("{HALF:+b}"), format!("{HALF:-b}"), format!("{HALF:#b}")], ["+1/10", "1/10", "0b1/0b10"]);
            assert_eq!([format!("{HALF:010b}"), format!("{HALF:#010b}")], ["0000001/10", "0b001/0b10"]);
            assert_eq!([format!("{:b}", -small), format!("{:#b}", -small)], ["11111111/10", "0b11111111/0b10"]);
            assert_eq!(format!("{:05}", Ratio::new(-1i8, 1)), "-0001");
        }

        #[test]
        fn texts_of_octal_and_hexadecimal() {
            let (eighth, sixteenth, fifteenth, half) = (raw(1, 8), raw(1, 16), raw(1, 15), Ratio::new(1i8, 2));
            assert_eq!([format!("{:o}", eighth.recip()), format!("{eighth:o}"), format!("{ZERO:o}"), format!("{eighth:#o}")], ["10", "1/10", "0", "0o1/0o10"]);
            assert_eq!([format!("{eighth:010o}"), format!("{eighth:#010o}")], ["0000001/10", "0o001/0o10"]);
            assert_eq!([format!("{:o}", -half), format!("{:#o}", -half)], ["377/2", "0o377/0o2"]);
            assert_eq!([format!("{:x}", raw(16, 1)), format!("{:x}", raw(15, 1)), format!("{sixteenth:x}"), format!("{fifteenth:x}")], ["10", "f", "1/10", "1/f"]);
            assert_eq!([format!("{ZERO:x}"), format!("{sixteenth:#x}"), format!("{sixteenth:010x}"), format!("{sixteenth:#010x}")], ["0", "0x1/0x10", "0000001/10", "0x001/0x10"]);
            assert_eq!([format!("{:x}", -half), format!("{:#x}", -half)], ["ff/2", "0xff/0x2"]);
            assert_eq!([format!("{:X}", raw(16, 1)), format!("{:X}", raw(15, 1)), format!("{sixteenth:X}"), format!("{fifteenth:X}")], ["10", "F", "1/10", "1/F"]);
            assert_eq!([format!("{ZERO:X}"), format!("{sixteenth:#X}"), format!("{sixteenth:010X}"), format!("{sixteenth:#010X}")], ["0", "0x1/0x10", "0000001/10", "0x001/0x10"]);
            assert_eq!([format!("{:X}", -half), format!("{:#X}", -half)], ["FF/2", "0xFF/0x2"]);
        }

        #[test]
        fn texts_with_exponents() {
            let (two, large) = (raw(-2, 1), raw(1_000_000_000, 1));
            let small = large.recip();
            assert_eq!([format!("{two:e}"), format!("{two:#e}"), format!("{two:+e}"), format!("{large:e}"), format!("{large:+e}")], ["-2e0", "-2e0", "-2e0", "1e9", "+1e9"]);
            assert_eq!([format!("{two:E}"), format!("{two:#E}"), format!("{two:+E}"), format!("{large:E}"), format!("{large:+E}")], ["-2E0", "-2E0", "-2E0", "1E9", "+1E9"]);
            assert_eq!([format!("{small:e}"), format!("{small:+e}"), format!("{small:E}"), format!("{small:+E}")], ["1e0/1e9", "+1e0/1e9", "1E0/1E9", "+1E0/1E9"]);
        }

        #[test]
        fn sums_and_differences() {
            operator! { + += CheckedAdd::checked_add, [(ONE, HALF, THREE_HALVES), (ONE, ONE, raw(2, 1)), (HALF, THREE_HALVES, raw(2, 1)), (HALF, MINUS_HALF, ZERO)], (HALF, 1, THREE_HALVES) }
            operator! { - -= CheckedSub::checked_sub, [(ONE, HALF, HALF), (THREE_HALVES, HALF, ONE), (ONE, MINUS_HALF, THREE_HALVES)], (HALF, 1, MINUS_HALF) }
        }

        #[test]
        fn products_and_quotients() {
            operator! { * *= CheckedMul::checked_mul, [(ONE, HALF, HALF), (HALF, THREE_HALVES, raw(3, 4)), (HALF, MINUS_HALF, raw(-1, 4))], (HALF, 2, ONE) }
            operator! { / /= CheckedDiv::checked_div, [(ONE, HALF, raw(2, 1)), (THREE_HALVES, HALF, raw(3, 1)), (ONE, MINUS_HALF, raw(-2, 1))], (ONE, 2, HALF) }
        }

        #[test]
        fn remainders() {
            let checked = |x: &Fraction, y: &Fraction| Some(x % y);
            operator! { % %= checked, [(THREE_HALVES, ONE, HALF), (THREE_HALVES, HALF, ZERO), (raw(5, 2), THREE_HALVES, ONE), (raw(2, 1), MINUS_HALF, ZERO), (HALF, raw(2, 1), HALF)], (THREE_HALVES, 1, HALF) }
        }

        /// In each type, results that fit though a product on the way does not.
        fn near_the_end<T: Integer + Bounded + Copy + Debug + NumAssign + CheckedMul>() {
            let (one, two, three, most) = (T::one(), T::one() + T::one(), T::one() + T::one() + T::one(), T::max_value());
            let last = Ratio::new(one, most);
            let assigned = |mut x: Ratio<T>, by: fn(&mut Ratio<T>, Ratio<T>), y| { by(&mut x, y); x };
            assert_eq!([last + last, assigned(last, |x, y| *x += y, last)], [Ratio::new(two, most); 2]);
            assert_eq!([last - last, assigned(last, |x, y| *x -= y, last)], [Ratio::zero(); 2]);
            let (half, even) = (Ratio::new(one, two), Ratio::new(one, most / two * two));
            assert_eq!([half % even, assigned(half, |x, y| *x %= y, even)], [Ratio::zero(); 2]);
            // About half of the greatest number, and even.
            let large = most / two / two * two;
            assert_eq!(CheckedMul::checked_mul(&large, &three), None);
            let (part, want) = (Ratio::new(one, large), Ratio::new(one, large / two * three));
            let (two_thirds, three_halves) = (Ratio::new(two, three), Ratio::new(three, two));
            assert_eq!([part * two_thirds, assigned(part, |x, y| *x *= y, two_thirds)], [want; 2]);
            assert_eq!([part / three_halves, assigned(part, |x, y| *x /= y, three_halves)], [want; 2]);
            assert_eq!([part.checked_mul(&two_thirds), part.checked_div(&three_halves)], [Some(want); 2]);
            // The same, and not a multiple of 3.
            let large = most / two / three * three + one;
            assert_eq!(CheckedMul::checked_mul(&large, &three), None);
            let (thirds, part) = (Ratio::new(large, three), Ratio::new(three, large));
            assert_eq!([thirds * three, { let mut x = thirds; x *= three; x }], [Ratio::new(large, one); 2]);
            assert_eq!([part / three, { let mut x = part; x /= three; x }], [Ratio::new(one, large); 2]);
        }

        #[test]
        fn near_the_end_of_each_type() {
            let checks = [near_the_end::<u8>, near_the_end::<u16>, near_the_end::<u32>, near_the_end::<u64>, near_the_end::<u128>, near_the_end::<usize>];
            checks.iter().for_each(|check| check());
            let checks = [near_the_end::<i8>, near_the_end::<i16>, near_the_end::<i32>, near_the_end::<i64>, near_the_end::<i128>, near_the_end::<isize>];
            checks.iter().for_each(|check| check());
        }

        #[test]
        fn negatives_and_zeros() {
            assert_eq!([-ZERO, -HALF, -(-ONE)], [ZERO, MINUS_HALF, ONE]);
            assert_eq!([ZERO + ZERO, ZERO * ZERO, ZERO * ONE, ZERO / MINUS_HALF, ZERO - ZERO], [ZERO; 5]);
        }

        #[test]
        #[should_panic]
        fn quotient_by_0() {
            let _ = ONE / ZERO;
        }

        #[test]
        fn checked_calls_without_a_result() {
            let (large, small) = (Ratio::new(128u8, 1), Ratio::new(1, 128u8));
            assert_eq!([large.checked_add(&large), small.checked_sub(&large), large.checked_mul(&large), small.checked_div(&large)], [None; 4]);
            assert_eq!(ONE.checked_div(&ZERO), None);
        }

        /// The checked sum, difference, product and quotient.
        fn checked(x: Fraction, y: Fraction) -> [Option<Fraction>; 4] {
            [x.checked_add(&y), x.checked_sub(&y), x.checked_mul(&y), x.checked_div(&y)]
        }

        #[test]
        fn checked_calls_at_the_ends() {
            let (after_least, before_most) = (raw(i64::MIN + 1, 1), raw(i64::MAX - 1, 1));
            assert_eq!(checked(ZERO, ZERO), [Some(ZERO), Some(ZERO), Some(ZERO), None]);
            assert_eq!(checked(LEAST, LEAST), [None, Some(ZERO), None, Some(ONE)]);
            assert_eq!(checked(ZERO, LEAST), [Some(LEAST), None, Some(ZERO), Some(ZERO)]);
            assert_eq!(checked(ONE, LEAST), [Some(after_least), None, Some(LEAST), None]);
            assert_eq!(checked(LEAST, ZERO), [Some(LEAST), Some(LEAST), Some(ZERO), None]);
            assert_eq!(checked(LEAST, ONE), [Some(after_least), None, Some(LEAST), Some(LEAST)]);
            assert_eq!(checked(MOST, MOST), [None, Some(ZERO), None, Some(ONE)]);
            assert_eq!(checked(ZERO, MOST), [Some(MOST), Some(after_least), Some(ZERO), Some(ZERO)]);
            assert_eq!(checked(ONE, MOST), [None, Some(-before_most), Some(MOST), Some(MOST.recip())]);
            assert_eq!(checked(MOST, ZERO), [Some(MOST), Some(MOST), Some(ZERO), None]);
            assert_eq!(checked(MOST, ONE), [None, Some(before_most), Some(MOST), Some(MOST)]);
            assert_eq!(checked(LEAST, MOST), [Some(-ONE), None, None, Some(Ratio::new(i64::MIN, i64::MAX))]);
            assert_eq!(checked(MOST, LEAST), [Some(-ONE), None, None, None]);
        }

        #[test]
        fn rounding() {
            let rows = [((1, 3), [1, 0, 0, 0]), ((-1, 3), [0, -1, 0, 0]), ((2, 3), [1, 0, 1, 0]), ((-2, 3), [0, -1, -1, 0]), ((1, 2), [1, 0, 1, 0]), ((-1, 2), [0, -1, -1, 0]), ((1, 1), [1; 4])];
            for ((numer, denom), wholes) in rows {
                let x = raw(numer, denom);
                assert_eq!([x.ceil(), x.floor(), x.round(), x.trunc()], wholes.map(Ratio::from_integer), "{x}");
            }
            let (least, most) = (i32::MIN, i32::MAX);
            let large = [(most, most - 1), (most - 1, most), (least + 2, least + 1), (least + 1, least + 2), (least + 2, most), (most, least + 2), (1, least + 1), (1, most)];
            assert_eq!(large.map(|x| Ratio::from(x).round()), [1, 1, 1, 1, -1, -1, 0, 0].map(Ratio::from_integer));
            assert_eq!([ONE, MINUS_HALF, HALF, THREE_HALVES].map(|x| x.fract()), [ZERO, MINUS_HALF, HALF, HALF]);
        }

        #[test]
        fn reciprocals() {
            assert_eq!([ONE, raw(2, 1), HALF, THREE_HALVES, MINUS_HALF].map(|x| x * x.recip()), [ONE; 5]);
            assert_eq!([THREE_HALVES.recip(), MINUS_HALF.recip()], [raw(2, 3), raw(-2, 1)]);
            assert_eq!(MINUS_HALF.recip().denom(), &1);
        }

        #[test]
        #[should_panic(expected = "division by zero")]
        fn reciprocal_of_0() {
            let _ = Ratio::new(0, 1).recip();
        }

        #[test]
        fn powers() {
            let rows = [(HALF, 2, raw(1, 4)), (HALF, -2, raw(4, 1)), (ONE, 1, ONE), (ONE, i32::MAX, ONE), (ONE, i32::MIN, ONE), (MINUS_HALF, 2, raw(1, 4)), (MINUS_HALF, 3, raw(-1, 8)), (THREE_HALVES, 0, ONE), (THREE_HALVES, -1, raw(2, 3)), (THREE_HALVES, 3, raw(27, 8))];
            for (x, e, want) in rows {
                assert_eq!([x.pow(e), Pow::pow(x, e), Pow::pow(x, &e), Pow::pow(&x, e), Pow::pow(&x, &e)], [want; 5], "{x} to the {e}");
            }
        }

        #[test]
        fn reading() {
            for (x, text) in [(ONE, "1"), (ZERO, "0"), (HALF, "1/2"), (THREE_HALVES, "3/2"), (raw(2, 1), "2"), (MINUS_HALF, "-1/2")] {
                assert_eq!((text.parse(), x.to_string()), (Ok(x), text.to_string()));
            }
            for text in ["0 /1", "abc", "", "1/", "--1/2", "3/2/1", "1/0"] {
                assert!(text.parse::<Fraction>().is_err(), "{text}");
            }
        }

        #[test]
        fn signs() {
            assert_eq!([MINUS_HALF.abs(), THREE_HALVES.abs_sub(&HALF), HALF.abs_sub(&THREE_HALVES)], [HALF, ONE, ZERO]);
            assert_eq!([HALF.signum(), MINUS_HALF.signum(), ZERO.signum()], [ONE, -ONE, ZERO]);
            for (x, sign) in [(MINUS_HALF, -1), (raw(1, -2), -1), (HALF, 1), (raw(-1, -2), 1), (ZERO, 0)] {
                assert_eq!((x.is_negative(), x.is_positive()), (sign < 0, sign > 0), "{x}");
            }
        }

        fn hash_of(x: Fraction) -> u64 {
            let mut state = DefaultHasher::new();
            x.hash(&mut state);
            state.finish()
        }

        #[test]
        fn hashes() {
            assert!(hash_of(ZERO) != hash_of(ONE) && hash_of(ZERO) != hash_of(THREE_HALVES));
            for (x, y) in [(raw(4, 2), raw(6, 3)), (raw(123456789, 1000), raw(617283945, 5000))] {
                assert_eq!((x, hash_of(x)), (y, hash_of(y)));
            }
        }

        #[test]
        fn pairs() {
            assert_eq!([ZERO, raw(-2, 1), raw(1, -2)].map(|x| -> (i64, i64) { x.into() }), [(0, 1), (-2, 1), (1, -2)]);
            assert_eq!([(0, 1), (1, 1), (-2, 1), (1, -2)].map(Ratio::from), [ZERO, ONE, raw(-2, 1), raw(1, -2)]);
        }

        fn folded<T: Integer + Copy>(items: &[Ratio<T>]) -> [[Ratio<T>; 3]; 2] {
            let (mut sum, mut product) = (Ratio::new(T::zero(), T::one()), Ratio::new(T::one(), T::one()));
            for item in items {
                sum = sum + item;
                product = product * item;
            }
            [[sum, items.iter().sum(), items.iter().cloned().sum()], [product, items.iter().product(), items.iter().cloned().product()]]
        }

        #[test]
        fn folds() {
            let items: Vec<Ratio<i32>> = (0..1000).map(|n| Ratio::new(n, 500)).collect();
            for [manual, of_references, of_values] in folded(&items) {
                assert_eq!([of_references, of_values], [manual; 2]);
            }
        }

        #[test]
        fn zero_and_one() {
            let (x, mut y, mut z) = (Fraction::new(123, 456), Fraction::new(123, 456), Fraction::new(123, 456));
            assert!(Fraction::zero().is_zero() && Fraction::one().is_one() && !x.is_zero() && !x.is_one());
            assert_eq!([x + Fraction::zero(), x * Fraction::one()], [x; 2]);
            y.set_zero();
            z.set_one();
            assert!(y.is_zero() && z.is_one());
        }

        #[test]
        fn in_constants() {
            const N: Ratio<i32> = Ratio::new_raw(123, 456);
            const FIELDS: [&i32; 2] = [N.numer(), N.denom()];
            let lowest = N.reduced();
            assert_eq!((FIELDS, [lowest.numer(), lowest.denom()]), ([&123, &456], [&41, &152]));
        }

        #[test]
        fn to_numbers() {
            assert_eq!((Fraction::new(70, 14).to_u64(), Fraction::new(-31, 8).to_i64(), Fraction::new(-31, 8).to_u64()), (Some(5), Some(-3), None));
            assert_eq!(Ratio::new(1i128 << 77, 1 << 7).to_i128(), Some(1 << 70));
            let rows = [((1, 2), 0.5), ((1, -2), -0.5), ((0, 2), 0.0), ((0, -2), -0.0), (((1 << 57) + 1, 1 << 54), 8.0), (((1 << 52) + 1, 1 << 52), 1.0000000000000002), (((1 << 60) + (1 << 8), 1 << 60), 1.0000000000000002)];
            for ((numer, denom), float) in rows {
                assert_eq!(Fraction::new(numer, denom).to_f64(), Some(float), "{numer}/{denom}");
            }
            assert_eq!(Ratio::new(1u8, 2).to_f64(), Some(0.5));
            assert_eq!([1, -1, 0].map(|numer| Ratio::<i32>::new_raw(numer, 0).to_f64()), [Some(f64::INFINITY), Some(f64::NEG_INFINITY), None]);
            assert_eq!([1, -1, 0].map(|numer| Ratio::<i128>::new_raw(numer, 0).to_f64()), [Some(f64::INFINITY), Some(f64::NEG_INFINITY), None]);
            assert_eq!(Ratio::new(1234567890987654321234567890i128, 987654321234567890987654321).to_f64(), Some(1.2499999893125));
        }
    };
}

mod this_crate {
    use bakhsney::{integer::Integer, Ratio};

    rows! {}
}

mod num_rational_itself {
    use num_integer::Integer;
    use original::Ratio;

    rows! {}
}
