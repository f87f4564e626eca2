//! `Total`: rows, and random totals beside fractions of `i128`. The answers of the rows are from Python's `fractions`. `wide_totals` has
//! the totals with fractions that no slot takes.

mod support;

use bakhsney::integer::Integer;
use bakhsney::{BigFraction, Ratio, Reduced, Reduced64, Rounding, Total};
use num_integer::Integer as _;
use std::cmp::Ordering;
use std::ops::AddAssign;
use std::panic::catch_unwind;
use support::Numbers;

const RULES: [Rounding; 6] =
    [Rounding::HalfEven, Rounding::HalfAway, Rounding::Down, Rounding::Up, Rounding::Floor, Rounding::Ceil];

fn of<T: Integer>(numer: T, denom: T) -> Reduced<T> {
    Reduced::checked_new(numer, denom).unwrap()
}

/// The fields of the sum, whose common denominator is never too long here.
fn sum<T: Integer>(total: &Total<T>) -> Option<(T, T)> {
    total.sum().unwrap().map(Reduced::into_raw)
}

fn mean<T: Integer>(total: &Total<T>) -> Option<(T, T)> {
    total.mean().unwrap().map(Reduced::into_raw)
}

macro_rules! rows {
    ($($call:expr => $answer:expr;)*) => {$(
        assert_eq!($call, $answer, "{}", stringify!($call));
    )*};
}

/// A total as the value of its sum.
#[test]
fn as_its_sum() {
    let mut total = Total::from(of(1i8, 3));
    rows! {
        total += 1 => ();
        [of(4, 3), of(1, 3)].map(|fraction| total == fraction) => [true, false];
        [0, 1].map(|number| total == number) => [false; 2];
        (total.to_string(), format!("{total:>5} {total:.2}")) => ("4/3".to_string(), "  4/3 1.33".to_string());
        total += Ratio::new_raw(-2, -6) => ();
        Reduced::try_from(&total) => Ok(of(5, 3));
        total -= Ratio::new_raw(4, 6) => ();
        (total == 1, total.count()) => (true, 2);
        total -= 3 => ();
        (total == -2, total.count(), total.to_string()) => (true, 1, "-2".to_string());
    }
    let wide: Total<i8> = [127, 127].map(Reduced::from).into_iter().collect();
    assert!(Reduced::try_from(&wide).is_err());
    assert_eq!((BigFraction::from(&wide), wide.to_string()), (BigFraction::from(254), "254".to_string()));
    assert_eq!((BigFraction::from(wide.clone()), Reduced::try_from(wide).is_err()), (BigFraction::from(254), true));
    let no_type: Total = Total::from(Reduced64::ONE);
    assert_eq!(Reduced64::try_from(no_type), Ok(Reduced64::ONE));
    for (numer, denom) in [(1, 0), (1, -128)] {
        let refusal = catch_unwind(move || Total::new().add_assign(Ratio::new_raw(numer as i8, denom as i8))).unwrap_err();
        assert!(refusal.downcast_ref::<String>().unwrap().starts_with("the denominator is 0, or the lowest terms do not fit"));
    }
}

#[test]
fn each_call() {
    let mut total = Total::<i8>::new();
    let other: Total<i8> = [of(1, 28), of(5, 36)].iter().collect();
    rows! {
        (total.count(), sum(&total), mean(&total)) => (0, Some((0, 1)), None);
        total.decimal(2, Rounding::HalfEven) => Ok("0.00".to_string());
        total.to_f64() => Ok(0.0);
        total.add(of(1, 36)) => ();
        (total.count(), sum(&total)) => (1, Some((1, 36)));
        total.merge(&other) => ();
        (total.count(), sum(&total), mean(&total)) => (3, Some((17, 84)), None); // the mean is 17/252
        total.subtract(of(1, 12)) => ();
        (total.count(), total.sum(), total.mean()) => (2, Ok(Some(of(5, 42))), Ok(Some(of(5, 84))));
        total.decimal(6, Rounding::Floor) => Ok("0.119047".to_string());
        total.to_f64() => Ok(0.11904761904761904);
        total.decimal(0, Rounding::Up) => Ok("1".to_string());
        format!("{total:?}") => "Total { count: 2, .. }";
        // the sum is 5/42
        total.sign() => Ok(Ordering::Greater);
        total.compare(&other) => Ok(Ordering::Less); // the other one is 11/63
        other.compare(&total) => Ok(Ordering::Greater);
        total.compare(&total) => Ok(Ordering::Equal);
        total.compare_with(of(5, 42)) => Ok(Ordering::Equal);
        total.compare_with(of(3, 25)) => Ok(Ordering::Less);
        RULES.map(|rule| total.to_integer(rule)) => [0, 0, 0, 1, 0, 1].map(|n| Ok(Some(n)));
        total.round_to(100, Rounding::HalfEven) => Ok(Some(of(3, 25)));
        total.round_to(100, Rounding::Floor) => Ok(Some(of(11, 100)));
        total.round_to(0, Rounding::Floor) => Ok(None);
        total.take_out(&other) => ();
        (total.count(), sum(&total), total.sign()) => (0, Some((-1, 18)), Ok(Ordering::Less));
        RULES.map(|rule| total.to_integer(rule)) => [0, 0, 0, -1, -1, 0].map(|n| Ok(Some(n)));
        total.round_to(-100, Rounding::Floor) => Ok(None);
        total.add_product(of(-100, 3), of(3, 4)) => Some(());
        (total.count(), total.to_integer(Rounding::HalfEven)) => (1, Ok(Some(-25))); // the sum is -451/18
        Total::dot(&[of(100i8, 3), of(-99, 3)], &[of(3, 4), of(3, 4)]).map(|total| (total.count(), sum(&total))) => Some((2, Some((1, 4))));
        Total::dot(&[of(1i8, 3)], &[]).is_none() => true;
    }
}

#[test]
fn what_does_not_fit_is_compared_and_rounded() {
    let harmonic: Total<i64> = (1..=1000).map(|denom| of(1, denom)).sum();
    let mut more = harmonic.clone();
    more += of(1, i64::MAX);
    rows! {
        (sum(&harmonic), sum(&more)) => (None, None);
        harmonic.compare(&more) => Ok(Ordering::Less);
        more.compare(&harmonic) => Ok(Ordering::Greater);
        harmonic.compare_with(of(748_547_086_055, 100_000_000_000)) => Ok(Ordering::Greater);
        harmonic.compare_with(of(748_547_086_056, 100_000_000_000)) => Ok(Ordering::Less);
        harmonic.round_to(100_000_000_000, Rounding::HalfEven) => Ok(Some(of(748_547_086_055, 100_000_000_000)));
        harmonic.to_integer(Rounding::Floor) => Ok(Some(7));
    }
    more -= &harmonic;
    assert_eq!((sum(&more), more.count()), (Some((1, i64::MAX)), 1));

    let wide: Total<i8> = [of(127, 1), of(1, 2)].iter().sum();
    rows! {
        RULES.map(|rule| wide.to_integer(rule).unwrap()) => [None, None, Some(127), None, Some(127), None];
        wide.round_to(2, Rounding::HalfEven) => Ok(None); // 255/2
        wide.round_to(1, Rounding::Down) => Ok(Some(of(127, 1)));
        wide.compare_with(of(127, 1)) => Ok(Ordering::Greater);
    }
    let none = Total::<u8>::new();
    rows! {
        none.sign() => Ok(Ordering::Equal);
        none.compare(&Total::new()) => Ok(Ordering::Equal);
        none.compare_with(of(1, 255)) => Ok(Ordering::Less);
        none.to_integer(Rounding::Up) => Ok(Some(0));
        none.round_to(255, Rounding::Up) => Ok(Some(of(0, 1)));
    }
}

#[test]
fn no_step_is_refused() {
    let twice: Total<i8> = [of(1, 36), of(1, 28)].iter().sum();
    assert_eq!(sum(&twice), Some((4, 63)));

    let mut many = Total::new();
    (0..100).for_each(|_| many.add(of(1i8, 127)));
    assert_eq!((sum(&many), mean(&many)), (Some((100, 127)), Some((1, 127))));
    (0..100).for_each(|_| many.add(of(-1, 127)));
    assert_eq!((sum(&many), mean(&many)), (Some((0, 1)), Some((0, 1))));

    let mut wide = Total::new();
    wide.add(of(127i8, 1));
    wide.add(of(1, 127));
    assert_eq!(sum(&wide), None);
    wide.subtract(of(1, 127));
    assert_eq!(sum(&wide), Some((127, 1)));
}

#[test]
fn a_harmonic_sum() {
    let total: Total<i64> = (1..=1000).map(|denom| of(1, denom)).sum();
    assert_eq!((sum(&total), mean(&total)), (None, None));
    assert_eq!(total.decimal(20, Rounding::HalfEven).unwrap(), "7.48547086055034491266");
    let total: Total<i64> = (1..=46).map(|denom| of(1, denom)).sum();
    assert_eq!(sum(&total), Some((5943339269060627227, 1345655451257488800)));
}

/// The least and the greatest number of each type, with a fraction that goes in and out.
macro_rules! ends {
    ($($T:ident)*) => {$(
        for end in [$T::MIN, $T::MAX] {
            let mut total = Total::new();
            total += of(end, 1);
            total += of(1, $T::MAX);
            total += of(1, 1);
            total -= of(1, $T::MAX);
            let past = end.checked_add(1);
            assert_eq!(sum(&total), past.map(|past| (past, 1)), "{end} + 1");
            total -= of(1, 1);
            total -= of(1, 1);
            let before = end.checked_sub(1);
            assert_eq!(sum(&total), before.map(|before| (before, 1)), "{end} - 1");
            total += of(1, 1);
            assert_eq!(sum(&total), Some((end, 1)), "{end}");
        }
        let least: Total<$T> = [of(1, $T::MAX)].iter().sum();
        assert_eq!((sum(&least), least.mean()), (Some((1, $T::MAX)), Ok(Some(of(1, $T::MAX)))));
    )*};
}

#[test]
fn ends_of_each_type() {
    ends! { i8 i16 i32 i64 isize u8 u16 u32 u64 usize }
}

/// Puts the items into a random order.
fn shuffle<T>(items: &mut [T], numbers: &mut Numbers) {
    for last in (1..items.len()).rev() {
        items.swap(last, numbers.below(last as u64 + 1) as usize);
    }
}

#[test]
fn entries_and_their_reversals() {
    let entries = (0..300_000).map(|i| of((1 + i % 9) * (1 - i % 2 * 2), 1000 + i % 2999));
    let mut entries: Vec<Reduced64> = entries.flat_map(|entry| [entry, entry.checked_neg().unwrap()]).collect();
    let in_order: Total<i64> = entries.iter().sum();
    assert_eq!((sum(&in_order), in_order.count()), (Some((0, 1)), 600_000));
    shuffle(&mut entries, &mut Numbers(1));
    let mut shuffled = Total::default();
    shuffled.extend(&entries);
    assert_eq!((sum(&shuffled), shuffled.count()), (Some((0, 1)), 600_000));
    assert_eq!(shuffled.decimal(40, Rounding::Up), Ok(format!("0.{}", "0".repeat(40))));
}

#[test]
fn merged_parts_are_the_whole() {
    let mut numbers = Numbers(2);
    for length in [0, 1, 5, 40, 900] {
        let fractions = (0..length).map(|_| of(numbers.word() as i64 >> 20, 1 + numbers.below(2000) as i64));
        let fractions: Vec<Reduced64> = fractions.collect();
        let whole: Total<i64> = fractions.iter().copied().collect();
        let mut parts: Vec<Total<i64>> = fractions.chunks(7).map(|part| part.iter().sum()).collect();
        let joined: Total<i64> = parts.iter().cloned().sum();
        shuffle(&mut parts, &mut numbers);
        let mut shuffled = Total::new();
        parts.iter().for_each(|part| shuffled += part);
        for total in [joined, shuffled] {
            assert_eq!(total.count(), whole.count());
            assert_eq!((total.sum(), total.mean()), (whole.sum(), whole.mean()));
            assert_eq!(total.decimal(50, Rounding::HalfEven), whole.decimal(50, Rounding::HalfEven));
        }
    }
}

#[test]
fn a_copy_is_another_total() {
    let mut first: Total<u8> = [1, 2, 3].map(Reduced::from).into_iter().sum();
    let copy = first.clone();
    first.extend([of(1, 2)]);
    assert_eq!((sum(&first), sum(&copy)), (Some((13, 2)), Some((6, 1))));
}

#[test]
fn a_table_grows_to_many_denominators() {
    const COUNT: i32 = 100_000;
    let mut total = Total::new();
    for round in 0..3 {
        (1..=COUNT).for_each(|denom| total.add(of(1, denom)));
        assert_eq!(total.count(), i64::from((round + 1) * COUNT));
    }
    let mut rest = total.clone();
    for _ in 0..3 {
        (2..=COUNT).for_each(|denom| rest.subtract(of(1, denom)));
    }
    rest.merge(&total);
    assert_eq!(rest.count(), i64::from(3 * COUNT + 3));
}

/// The number whose product with this odd one is 1 modulo 2^64.
#[cfg(feature = "std")]
fn inverse(odd: u64) -> u64 {
    (0..6).fold(odd, |x, _| x.wrapping_mul(2u64.wrapping_sub(odd.wrapping_mul(x))))
}

/// Both chosen lists have one home for all: the first one if the length of the table did not matter, and the second one in each table of
/// 2^15 slots, 2^16, and so on. If they collided, they would take a thousand times as long.
#[test]
#[cfg(feature = "std")]
fn chosen_denominators_take_no_longer() {
    let [spread, factor] = [0x9e37_79b9_7f4a_7c15, (1 << 32) + 1].map(inverse);
    let chosen: [&dyn Fn(u64) -> u64; 2] = [&|n| n.wrapping_mul(spread), &|n| ((1 << 32) + n).wrapping_mul(factor)];
    let fastest = |denom: &dyn Fn(u64) -> u64| {
        let fractions: Vec<_> = (1..=30_000).map(|n| of(1, denom(n))).collect();
        let time = |_| {
            let start = std::time::Instant::now();
            assert_eq!(fractions.iter().sum::<Total<u64>>().count(), 30_000);
            start.elapsed()
        };
        (0..5).map(time).min()
    };
    let plain = fastest(&|n| n).map(|time| 30 * time);
    for denom in chosen {
        assert!(fastest(denom) < plain);
    }
}

/// Each type over each thread: `Total` asks nothing of the type for this.
#[test]
fn may_be_sent_and_shared() {
    fn check<S: Send + Sync>() {}
    fn of_each<T: Integer>() {
        check::<Total<T>>();
    }
    of_each::<i64>();
}

/// Merges of a total with itself double its additions, of which there are at most 2^63-1.
#[test]
fn too_many_additions_panic() {
    let mut double: Total<i8> = [of(1, 2)].iter().sum();
    let mut total = Total::new();
    for _ in 0..62 {
        total.merge(&double);
        double.merge(&double.clone());
    }
    total.merge(&double);
    assert_eq!((total.count(), mean(&total)), (i64::MAX, Some((1, 2))));
    let calls: [fn(&mut Total<i8>); 4] = [
        |total| total.add(of(1, 2)),
        |total| *total -= of(1, 2),
        |total| total.merge(&[of(1, 3)].iter().sum()),
        |total| *total -= &[of(1, 3)].iter().sum::<Total<i8>>(),
    ];
    for call in calls {
        let mut full = total.clone();
        let why = catch_unwind(move || call(&mut full)).unwrap_err();
        assert_eq!(*why.downcast::<&str>().unwrap(), "a total of more than 2^63-1 additions");
    }
}

/// The sum of these fractions, in lowest terms, by `i128`. The denominators are small.
fn exact_sum<T: Integer>(signed: &[(bool, Reduced<T>)]) -> (i128, i128) {
    let fields = signed.iter().map(|(minus, x)| {
        let numer = x.numer().to_i128().unwrap();
        (if *minus { -numer } else { numer }, x.denom().to_i128().unwrap())
    });
    let fields: Vec<(i128, i128)> = fields.collect();
    let common = fields.iter().fold(1, |common: i128, (_, denom)| common.lcm(denom));
    lowest(fields.iter().map(|(numer, denom)| common / denom * numer).sum(), common)
}

fn lowest(numer: i128, denom: i128) -> (i128, i128) {
    let divisor = numer.gcd(&denom);
    (numer / divisor, denom / divisor)
}

/// The same over the type, if both fit.
fn held<T: Integer>((numer, denom): (i128, i128)) -> Option<(T, T)> {
    Some((T::from(numer)?, T::from(denom)?))
}

/// The whole number that the rule gives of the fraction, whose denominator is above 0.
fn rounded((numer, denom): (i128, i128), rule: Rounding) -> i128 {
    let (floor, rest) = numer.div_mod_floor(&denom);
    let up = match rule {
        Rounding::HalfEven => 2 * rest > denom || 2 * rest == denom && floor % 2 != 0,
        Rounding::HalfAway => 2 * rest > denom || 2 * rest == denom && numer > 0,
        Rounding::Down => rest > 0 && numer < 0,
        Rounding::Up => rest > 0 && numer > 0,
        Rounding::Floor => false,
        Rounding::Ceil => rest > 0,
    };
    floor + i128::from(up)
}

/// Compares what is rounded of a total, and its order beside another one, with the same of the exact sums.
fn compare_reads<T: Integer>(total: &Total<T>, exact: (i128, i128), other: (&Total<T>, (i128, i128)), numbers: &mut Numbers) {
    let order = |(n, d): (i128, i128), (m, e): (i128, i128)| (n * e).cmp(&(m * d));
    assert_eq!(total.sign(), Ok(exact.0.cmp(&0)));
    assert_eq!(total.compare(other.0), Ok(order(exact, other.1)));
    let mut difference = total.clone();
    difference -= other.0;
    assert_eq!((difference.count(), difference.sign()), (total.count() - other.0.count(), Ok(order(exact, other.1))));
    if let Some(fraction) = other.0.sum().unwrap() {
        assert_eq!(total.compare_with(fraction), Ok(order(exact, other.1)));
    }
    let rule = RULES[numbers.below(6) as usize];
    assert_eq!(total.to_integer(rule).unwrap(), T::from(rounded(exact, rule)));
    let parts = 1 + numbers.below(120) as i128;
    let multiple = lowest(rounded((exact.0 * parts, exact.1), rule), parts);
    assert_eq!(total.round_to(T::from(parts).unwrap(), rule).unwrap().map(Reduced::into_raw), held(multiple));
}

/// Compares random totals of up to 12 fractions. Of the sums, many fit the type and many do not.
fn compare_random<T: Integer>(count: usize, mut fraction: impl FnMut(&mut Numbers) -> Reduced<T>) {
    let mut numbers = Numbers(3);
    let mut fitting = 0;
    let mut before = (Total::new(), (0, 1));
    for _ in 0..count {
        let length = numbers.below(13);
        let signed: Vec<_> = (0..length).map(|_| (numbers.below(3) == 0, fraction(&mut numbers))).collect();
        let mut total = Total::new();
        for (minus, x) in &signed {
            if *minus {
                total.subtract(*x);
            } else {
                total.add(*x);
            }
        }
        let minuses = signed.iter().filter(|(minus, _)| *minus).count();
        let (exact, left) = (exact_sum(&signed), length as i64 - 2 * minuses as i64);
        assert_eq!((sum(&total), total.count()), (held(exact), left), "{signed:?}");
        let exact_mean = if left > 0 { held(lowest(exact.0, exact.1 * i128::from(left))) } else { None };
        assert_eq!(mean(&total), exact_mean, "{signed:?}");
        fitting += usize::from(held::<T>(exact).is_some());
        if let Some(fits) = total.sum().unwrap() {
            let (places, rule) = (numbers.below(39) as u32, RULES[numbers.below(6) as usize]);
            assert_eq!(total.decimal(places, rule).unwrap(), fits.decimal(places, rule).as_str(), "{signed:?}");
        }
        compare_reads(&total, exact, (&before.0, before.1), &mut numbers);
        before = (total, exact);
    }
    assert!(count / 10 < fitting && fitting < count / 10 * 9, "{fitting} of {count} sums fit");
}

#[test]
fn random_totals_of_8_bits() {
    compare_random(100_000, |numbers| {
        let most = [4, 12, 127][numbers.below(3) as usize];
        of(numbers.word() as i8 >> numbers.below(8), 1 + numbers.below(most) as i8)
    });
}

#[test]
fn random_totals_of_64_bits() {
    compare_random(100_000, |numbers| of(numbers.word() as i64 >> numbers.below(8), 1 + numbers.below(24) as i64));
}

#[test]
fn random_totals_without_a_sign() {
    compare_random(10_000, |numbers| of(numbers.word() >> numbers.below(64), 1 + numbers.below(24)));
}

/// The total of the products, beside the sum of the products of the fields. Over 8 bits, each product goes in.
#[test]
fn random_dots() {
    let mut numbers = Numbers(4);
    let mut fraction = || of(numbers.word() as i8 >> numbers.below(8), 1 + numbers.below(12) as i8);
    for count in (0..10_000).map(|round| round % 7) {
        let pairs: Vec<_> = (0..count).map(|_| (fraction(), fraction())).collect();
        let (left, right): (Vec<_>, Vec<_>) = pairs.iter().copied().unzip();
        let product = |(x, y): &(Reduced<i8>, Reduced<i8>)| of(i64::from(*x.numer()) * i64::from(*y.numer()), i64::from(*x.denom()) * i64::from(*y.denom()));
        let products: Vec<_> = pairs.iter().map(|pair| (false, product(pair))).collect();
        let total = Total::dot(&left, &right).unwrap();
        assert_eq!((sum(&total), total.count()), (held(exact_sum(&products)), count), "{pairs:?}");
    }
}

/// The common denominator of 21,000 numbers below 2^64 is too long, but a decimal needs none. Without optimization, a read would take a
/// minute. The text is from Python's `fractions`.
#[test]
#[cfg(not(debug_assertions))]
fn too_long_a_denominator() {
    let total: Total<u64> = (0..21_000).map(|i| of(1, u64::MAX - i)).sum();
    assert_eq!(total.sum().unwrap_err().to_string(), "the common denominator is too long");
    assert_eq!(total.compare_with(of(1, 1)).unwrap_err(), total.sum().unwrap_err());
    assert_eq!(total.decimal(38, Rounding::HalfEven).unwrap(), "0.00000000000000113841228110978030372994");
}
