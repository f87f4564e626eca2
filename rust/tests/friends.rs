//! Fractions for other crates: each has a feature of its name. `rust/friends` runs these tests with all five.

/// The fraction of two numbers, which need not be in lowest terms.
#[cfg(any(feature = "arbitrary", feature = "quickcheck", feature = "rand"))]
fn fraction<T: bakhsney::integer::Integer>(numer: T, denom: T) -> bakhsney::Reduced<T> {
    bakhsney::Reduced::checked_new(numer, denom).unwrap()
}

#[cfg(feature = "arbitrary")]
mod arbitrary {
    use super::fraction;
    use arbitrary::{Arbitrary, Unstructured};
    use bakhsney::{BigFraction, Ratio, Reduced};
    use num_integer::Integer as _;
    use std::collections::HashSet;

    fn of<'a, F: Arbitrary<'a>>(bytes: &'a [u8]) -> F {
        F::arbitrary(&mut Unstructured::new(bytes)).unwrap()
    }

    #[test]
    fn bytes_of_two_numbers() {
        let rows = [
            ([6, 7, 252, 7], fraction(-3, 2)), // 6/-4
            ([6, 7, 0, 7], fraction(6, 1)),
            ([128, 7, 255, 7], fraction(-128, 1)), // 128 does not fit
            ([128, 7, 254, 7], fraction(64, 1)),
            ([100, 3, 3, 15], fraction(2, 1)), // the highest 4 bits of 100
            ([100, 255, 200, 0], fraction(-100, 1)), // only the sign of -56
        ];
        for (bytes, expected) in rows {
            assert_eq!(of::<Reduced<i8>>(&bytes), expected, "{bytes:?}");
            assert_eq!(of::<Ratio<i8>>(&bytes).into_raw(), expected.into_raw(), "{bytes:?}");
        }
        assert_eq!(of::<Reduced<u8>>(&[255, 7, 254, 6]), fraction(255, 127));
        assert_eq!(<Reduced<i8> as Arbitrary>::size_hint(0), (4, Some(4)));
        assert_eq!(<Ratio<i64> as Arbitrary>::size_hint(0), (18, Some(18)));
        assert_eq!(BigFraction::size_hint(0), (19, None));
    }

    #[test]
    fn each_fraction_comes() {
        let all = || -128..=127i8;
        let found: HashSet<_> = all().flat_map(|numer| all().map(move |denom| of::<Reduced<i8>>(&[numer as u8, 7, denom as u8, 7]).into_raw())).collect();
        let lowest: HashSet<_> = all().flat_map(|numer| (1..=127).map(move |denom| (numer, denom))).filter(|(n, d)| i32::from(*n).gcd(&i32::from(*d)) == 1).collect();
        assert_eq!(found, lowest);
    }

    #[test]
    fn bytes_of_many_digits() {
        let mut short = vec![0; 36];
        for (at, byte) in [(0, 6), (8, 63), (9, 4), (17, 63)] {
            short[at] = byte;
        }
        assert_eq!(of::<BigFraction>(&short), BigFraction::new(3, 2));
        let mut below_0 = short.clone();
        below_0[..8].copy_from_slice(&(-6i64).to_le_bytes());
        assert_eq!(of::<BigFraction>(&below_0), BigFraction::new(-3, 2));
        // Both lists have one digit, which is below 3 and 2.
        let mut bytes = short[..18].to_vec();
        bytes.push(1);
        for digit in [5u8, 9] {
            bytes.push(1);
            bytes.extend([digit, 0, 0, 0, 0, 0, 0, 0]);
            bytes.push(0);
        }
        assert_eq!(of::<BigFraction>(&bytes), BigFraction::new((3 << 64) + 5, (2i128 << 64) + 9));
    }
}

#[cfg(feature = "quickcheck")]
mod quickcheck {
    use super::fraction;
    use bakhsney::integer::Integer;
    use bakhsney::{BigFraction, Ratio, Reduced, Reduced64};
    use num_traits::Signed;
    use quickcheck::{Arbitrary, Gen};

    const MOST: usize = 100_000;

    /// The digits of a number, the highest first, after their count. So the order is that of the numbers.
    fn ordered(mut digits: Vec<u64>) -> (usize, Vec<u64>) {
        digits.reverse();
        (digits.len(), digits)
    }

    /// Each step is to a smaller denominator, or to a smaller numerator, or takes the sign away.
    fn each_is_simpler(x: &BigFraction) {
        let rank = |x: &BigFraction| (ordered(x.denom_digits()), ordered(x.numer_digits()), x.is_negative());
        let simpler_ones: Vec<_> = x.shrink().take(MOST).collect();
        assert!(simpler_ones.len() < MOST, "{x}");
        assert!(simpler_ones.iter().all(|y| rank(y) < rank(x)), "{x}: {simpler_ones:?}");
        assert_eq!(simpler_ones.first().cloned(), Some(BigFraction::from(0)).filter(|zero| zero != x), "{x}");
    }

    #[test]
    fn simpler_ones_in_their_order() {
        let rows = [
            ("-3/7", "0 -3 1/7 -1 0 -1/2 3/7 0 -2/7 -3/4 -1/2"), // the convergents are -1, 0, -1/2 and -3/7
            ("-5", "0 1 5 0 -3 -4"),
            ("100", "0 1 0 50 75 88 94 97 99"),
        ];
        for (text, expected) in rows {
            let x: BigFraction = text.parse().unwrap();
            let found: Vec<String> = x.shrink().map(|y| y.to_string()).collect();
            assert_eq!(found.join(" "), expected, "{text}");
        }
    }

    #[test]
    fn shrinking_makes_simpler_and_ends() {
        for size in [2, 10] {
            let mut generator = Gen::new(size);
            (0..100).for_each(|_| each_is_simpler(&BigFraction::arbitrary(&mut generator)));
        }
        for text in ["0", "1", "-1", "1/2", "-3/7", "170141183460469231731687303715884105727/3"] {
            each_is_simpler(&text.parse().unwrap());
        }
    }

    fn of_type<T: Integer + Arbitrary>() {
        let mut generator = Gen::new(10);
        let ends = [T::min_value(), T::max_value(), T::one(), T::zero()];
        let at_ends = ends.iter().flat_map(|&numer| ends.iter().filter_map(move |&denom| Reduced::checked_new(numer, denom)));
        let drawn: Vec<_> = (0..100).map(|_| Reduced::<T>::arbitrary(&mut generator)).collect();
        for x in at_ends.chain(drawn) {
            // 128 is simpler than -128, and does not fit an `i8`.
            let by_big: Vec<Reduced<T>> = BigFraction::from(x).shrink().filter_map(|y| y.try_into().ok()).collect();
            assert_eq!(x.shrink().take(MOST).collect::<Vec<_>>(), by_big, "{x}");
            assert!(Ratio::from(x).shrink().take(MOST).map(Ratio::into_raw).eq(by_big.into_iter().map(Reduced::into_raw)), "{x}");
        }
        assert_eq!(Ratio::new_raw(T::one(), T::zero()).shrink().count(), 0);
    }

    #[test]
    fn each_type_shrinks_alike() {
        of_type::<i8>();
        of_type::<u8>();
        of_type::<i64>();
        of_type::<i128>();
        of_type::<u128>();
    }

    /// The fraction that no step makes simpler while `fails` is true.
    fn simplest<A: Arbitrary>(mut x: A, fails: impl Fn(&A) -> bool) -> A {
        while let Some(simpler) = x.shrink().find(&fails) {
            x = simpler;
        }
        x
    }

    #[test]
    fn a_failure_shrinks_to_the_simplest() {
        for text in ["355/113", "-9223372036854775807/9223372036854775806", "1000000007/998244353", "12345/678", "-1/9223372036854775807"] {
            let x: Reduced64 = text.parse().unwrap();
            assert_eq!(simplest(x, |y| *y.denom() > 7), fraction(1, 8), "{text}");
            assert!(x.numer().abs() <= 5 || simplest(x, |y| y.numer().abs() > 5) == 6, "{text}");
            assert_eq!(simplest(x, |_| true), Reduced::ZERO, "{text}");
        }
        assert_eq!(simplest(fraction(113i64, 7), |y| *y > fraction(7, 2)), fraction(4, 1));
        assert_eq!(simplest(Reduced::from(i64::MIN), |y| y.checked_sub(i64::MAX).is_none()), Reduced::from(-2));
        assert_eq!(simplest(Reduced::from(127i8), |y| y.checked_add(y).is_none()), Reduced::from(64));
    }

    #[test]
    fn small_numbers_are_as_common_as_great_ones() {
        let mut generator = Gen::new(100);
        let drawn: Vec<_> = (0..4000).map(|_| Reduced64::arbitrary(&mut generator).into_raw()).collect();
        let numbers_of = |bits| drawn.iter().filter(|(numer, _)| 64 - numer.unsigned_abs().leading_zeros() == bits).count();
        for bits in [2, 10, 30, 50, 62] {
            assert!((10..160).contains(&numbers_of(bits)), "{bits} bits: {}", numbers_of(bits));
        }
        let with_one = drawn.iter().filter(|(numer, _)| *numer < 0).count();
        assert!((1000..2600).contains(&with_one), "{with_one} below 0");
        let short = (0..400).filter(|_| Reduced64::try_from(BigFraction::arbitrary(&mut generator)).is_ok()).count();
        assert!((130..270).contains(&short), "{short} of 400 fit an i64");
    }

    #[test]
    fn a_property_is_tested() {
        fn halves_are_halves(x: Reduced64, y: BigFraction) -> bool {
            x.checked_div(2).map_or(true, |half| half.checked_add(half) == Some(x)) && &y / 2 + &y / 2 == y
        }
        quickcheck::quickcheck(halves_are_halves as fn(Reduced64, BigFraction) -> bool);
    }
}

#[cfg(feature = "proptest")]
mod proptest {
    use bakhsney::{BigFraction, Ratio, Reduced, Reduced64};
    use proptest::prelude::*;
    use proptest::strategy::ValueTree;
    use proptest::test_runner::TestRunner;
    use std::collections::HashSet;

    /// What a drawn value becomes if each simpler one fails, too.
    fn shrunk<A: Arbitrary>(runner: &mut TestRunner) -> A {
        let mut tree = any::<A>().new_tree(runner).unwrap();
        while tree.simplify() {}
        tree.current()
    }

    #[test]
    fn values_shrink_to_0() {
        let mut runner = TestRunner::deterministic();
        for _ in 0..50 {
            assert_eq!(shrunk::<Reduced64>(&mut runner), Reduced::ZERO);
            assert_eq!(shrunk::<Ratio<u8>>(&mut runner), Ratio::ZERO);
            assert_eq!(shrunk::<BigFraction>(&mut runner), BigFraction::from(0));
        }
    }

    #[test]
    fn values_differ() {
        let mut runner = TestRunner::deterministic();
        let mut draw = || any::<(Reduced<i128>, BigFraction)>().new_tree(&mut runner).unwrap().current();
        let drawn: HashSet<_> = (0..200).map(|_| draw()).collect();
        assert!(drawn.len() > 190, "{}", drawn.len());
        let short = drawn.iter().filter(|(_, x)| Reduced64::try_from(x).is_ok()).count();
        assert!((60..140).contains(&short), "{short} of 200 fit an i64");
        assert!(drawn.iter().any(|(x, _)| x.is_integer()) && drawn.iter().any(|(x, _)| *x.denom() > 1 << 100));
    }

    proptest! {
        #[test]
        fn sums_of_big_fractions_come_back(x: BigFraction, y: Reduced64) {
            prop_assert_eq!(&x + BigFraction::from(y) - &x, BigFraction::from(y));
        }
    }
}

#[cfg(feature = "rand")]
mod rand {
    use super::fraction;
    use bakhsney::integer::Integer;
    use bakhsney::{FractionsBetween, Reduced};
    use rand::distributions::uniform::SampleUniform;
    use rand::distributions::Distribution;
    use rand::{Error, RngCore};
    use std::collections::BTreeMap;

    /// A generator that has one byte: the highest one of the first word. The second word is never asked for if the first one is taken.
    struct Counting {
        byte: u8,
        words: u32,
    }

    impl RngCore for Counting {
        fn next_u32(&mut self) -> u32 {
            (self.next_u64() >> 32) as u32
        }

        fn next_u64(&mut self) -> u64 {
            self.words += 1;
            if self.words > 1 { 0 } else { u64::from(self.byte) << 56 }
        }

        fn fill_bytes(&mut self, _: &mut [u8]) {
            unreachable!()
        }

        fn try_fill_bytes(&mut self, _: &mut [u8]) -> Result<(), Error> {
            unreachable!()
        }
    }

    /// How often each fraction is drawn by the 256 bytes, without those that ask for another word. For a type of 8 bits, rand looks at more
    /// bits of a word. There 256 bytes do for 4 and for 8 fractions.
    fn counts<T: Integer + SampleUniform>(between: FractionsBetween<T>) -> BTreeMap<Reduced<T>, u32> {
        let mut counts = BTreeMap::new();
        for byte in 0..=255 {
            let mut generator = Counting { byte, words: 0 };
            let drawn = between.sample(&mut generator);
            if generator.words == 1 {
                *counts.entry(drawn).or_default() += 1;
            }
        }
        counts
    }

    /// Draws between the two ends find each of these fractions, and each equally often.
    fn finds<T: Integer + SampleUniform>(low: (T, T), high: (T, T), parts: T, expected: &[(T, T)]) {
        let between = FractionsBetween::new(fraction(low.0, low.1), fraction(high.0, high.1), parts).unwrap();
        let counts = counts(between);
        assert_eq!(counts.keys().copied().map(Reduced::into_raw).collect::<Vec<_>>(), expected);
        let often = *counts.values().next().unwrap();
        assert!(often >= 256 / (2 * expected.len() as u32) && counts.values().all(|&count| count == often), "{counts:?}");
    }

    #[test]
    fn each_is_drawn_equally_often() {
        finds((0i8, 1), (7, 6), 6, &[(0, 1), (1, 6), (1, 3), (1, 2), (2, 3), (5, 6), (1, 1), (7, 6)]);
        finds((0i64, 1), (1, 1), 6, &[(0, 1), (1, 6), (1, 3), (1, 2), (2, 3), (5, 6), (1, 1)]);
        finds((1i64, 3), (7, 6), 6, &[(1, 3), (1, 2), (2, 3), (5, 6), (1, 1), (7, 6)]);
        finds((-5i32, 8), (-1, 7), 5, &[(-3, 5), (-2, 5), (-1, 5)]);
        finds((1u64, 2), (1, 2), 1 << 63, &[(1, 2)]);
        finds((i64::MAX - 2, i64::MAX), (1, 1), i64::MAX, &[(i64::MAX - 2, i64::MAX), (i64::MAX - 1, i64::MAX), (1, 1)]);
        finds((-1i8, 1), (-31, 32), 127, &[(-1, 1), (-126, 127), (-125, 127), (-124, 127)]);
    }

    #[test]
    fn what_is_refused() {
        let [third, half] = [fraction(1i8, 3), fraction(1, 2)];
        let is_refused = |low, high, parts| FractionsBetween::new(low, high, parts).is_none();
        assert!(is_refused(third, half, 0) && is_refused(third, half, -6) && is_refused(-half, -third, -6));
        assert!(is_refused(third, half, 1) && is_refused(half, third, 6) && !is_refused(third, half, 6));
        assert!(is_refused(third, Reduced::from(127), 2) && !is_refused(third, Reduced::from(127), 1));
    }
}

#[cfg(feature = "postgres-types")]
mod postgres_types {
    use bakhsney::{Ratio, Reduced64};
    use bytes::BytesMut;
    use postgres_types::{FromSql, Kind, ToSql, Type};

    fn named(name: &str, kind: Kind) -> Type {
        Type::new(name.into(), 70_000, kind, "public".into())
    }

    fn ratio() -> Type {
        named("ratio", Kind::Simple)
    }

    fn written(value: &dyn ToSql) -> Result<Vec<u8>, String> {
        let mut out = BytesMut::new();
        value.to_sql_checked(&ratio(), &mut out).map_err(|error| error.to_string())?;
        Ok(out.to_vec())
    }

    fn bytes_of(numer: i64, denom: i64) -> Vec<u8> {
        [numer.to_be_bytes(), denom.to_be_bytes()].concat()
    }

    #[test]
    fn bytes_are_those_of_the_server() {
        // What `SELECT ratio_send('-3/4')` prints.
        let sent: Vec<u8> = [[255; 7].as_slice(), &[253], &[0; 7], &[4]].concat();
        assert_eq!(written(&Reduced64::new(-3, 4)), Ok(sent.clone()));
        assert_eq!(written(&Ratio::new_raw(6i64, -8)), Ok(sent.clone()));
        assert_eq!(Reduced64::from_sql(&ratio(), &sent).unwrap(), Reduced64::new(-3, 4));
        assert_eq!(Ratio::from_sql(&ratio(), &sent).unwrap().into_raw(), (-3, 4));
        for (numer, denom) in [(0, 1), (i64::MIN, 1), (i64::MIN, i64::MAX), (1, i64::MAX)] {
            let x = Reduced64::new(numer, denom);
            assert_eq!(written(&x), Ok(bytes_of(numer, denom)));
            assert_eq!(Reduced64::from_sql(&ratio(), &bytes_of(numer, denom)).unwrap(), x);
        }
    }

    #[test]
    fn what_is_refused() {
        for (numer, denom) in [(1, 0), (0, 0), (2, 4), (0, 2), (1, -2), (i64::MIN, i64::MIN), (i64::MIN, -1)] {
            let said = Reduced64::from_sql(&ratio(), &bytes_of(numer, denom)).unwrap_err().to_string();
            assert_eq!(said, format!("invalid binary ratio: {numer}/{denom} is not in lowest terms with a denominator above 0"));
            assert!(Ratio::from_sql(&ratio(), &bytes_of(numer, denom)).is_err());
        }
        for length in [0, 8, 15, 17, 32] {
            let said = Reduced64::from_sql(&ratio(), &vec![0; length]).unwrap_err().to_string();
            assert_eq!(said, format!("a binary ratio has 16 bytes, and not {length}"));
        }
        for value in [Ratio::new_raw(1i64, 0), Ratio::new_raw(1, i64::MIN)] {
            assert_eq!(written(&value), Err("the denominator is 0, or the lowest terms do not fit the type or the memory".into()));
        }
    }

    #[test]
    fn which_types_are_taken() {
        let list = named("_ratio", Kind::Array(ratio()));
        let domain = named("ratio", Kind::Domain(Type::NUMERIC));
        for (kind, is_taken) in [(ratio(), true), (Type::NUMERIC, false), (Type::INT8, false), (named("rational", Kind::Simple), false), (domain, false), (list.clone(), false)] {
            assert_eq!([<Reduced64 as ToSql>::accepts(&kind), <Ratio<i64> as ToSql>::accepts(&kind)], [is_taken; 2], "{kind}");
            assert_eq!([<Reduced64 as FromSql>::accepts(&kind), <Ratio<i64> as FromSql>::accepts(&kind)], [is_taken; 2], "{kind}");
        }
        assert!(<Vec<Reduced64> as ToSql>::accepts(&list) && <Vec<Option<Ratio<i64>>> as FromSql>::accepts(&list));
        let said = Reduced64::ONE.to_sql_checked(&Type::NUMERIC, &mut BytesMut::new()).map(|_| ()).unwrap_err().to_string();
        assert!(said.contains("numeric"), "{said}");
    }
}
