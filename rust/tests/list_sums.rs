//! Sums of lists of `Reduced`: rows, and random lists beside fractions of big integers. The answers of the rows are from Python's `fractions`.

mod support;

use bakhsney::integer::Integer;
use bakhsney::Reduced;
use num_traits::{FromPrimitive, ToPrimitive};
use original::BigRational;
use support::Numbers;

type Fields<T> = Option<(T, T)>;

/// The fields of items, and those of their sum.
type Row = (&'static [(i128, i128)], Fields<i128>);

fn of<T: Integer>(numer: T, denom: T) -> Reduced<T> {
    Reduced::checked_new(numer, denom).unwrap()
}

fn sum<T: Integer>(items: &[Reduced<T>]) -> Fields<T> {
    let sum = Reduced::checked_sum(items);
    assert_eq!(items.iter().sum::<Option<Reduced<T>>>(), sum);
    sum.map(Reduced::into_raw)
}

/// The fold of `checked_add`.
fn folded<T: Integer>(items: &[Reduced<T>]) -> Fields<T> {
    items.iter().try_fold(Reduced::ZERO, |sum, item| sum.checked_add(item)).map(Reduced::into_raw)
}

/// What `sum` returns where each partial sum need not fit.
#[cfg(feature = "alloc")]
fn or_none<T>(fields: Fields<T>) -> Fields<T> {
    fields
}

#[cfg(not(feature = "alloc"))]
fn or_none<T>(_: Fields<T>) -> Fields<T> {
    None
}

#[test]
fn partial_sums_need_not_fit() {
    let [most, small, less] = [of(127i8, 1), of(1, 127), of(-1, 127)];
    assert_eq!(sum(&[most, small, less]), Some((127, 1)));
    assert_eq!(sum(&[most, small]), None);
    assert_eq!(sum(&[of(1i8, 36), of(1, 28)]), Some((4, 63)));
    let hundred: Vec<Reduced<i8>> = [[small; 100], [less; 100]].concat();
    assert_eq!(sum(&hundred), Some((0, 1)));
    assert_eq!(sum(&hundred[..100]), Some((100, 127)));
    assert_eq!(sum(&[most, most, of(-127, 1)]), Some((127, 1)));
    assert_eq!(sum(&[127i8, 1, -1].map(Reduced::from)), Some((127, 1)));
    assert_eq!(sum::<i8>(&[]), Some((0, 1)));
}

#[test]
fn a_harmonic_sum() {
    let harmonic: Vec<Reduced<i64>> = (1..=1000).map(|denom| of(1, denom)).collect();
    assert_eq!(sum(&harmonic), None);
    assert_eq!(sum(&harmonic[..46]), Some((5943339269060627227, 1345655451257488800)));
    let there_and_back: Vec<Reduced<i64>> = harmonic.iter().copied().chain((2..=1000).map(|denom| of(-1, denom))).collect();
    assert_eq!((sum(&there_and_back), folded(&there_and_back)), (or_none(Some((1, 1))), None));
}

/// 64 bits are too few for the sum over the common denominator. Each partial sum fits.
#[test]
fn steps_in_lowest_terms() {
    let primes = [4294967291u64, 4294967279, 4294967231, 4294967197];
    let up_and_down: Vec<Reduced<i64>> = primes.iter().flat_map(|&p| [of(1, p as i64), of(-1, p as i64)]).collect();
    assert_eq!(sum(&up_and_down), Some((0, 1)));
    assert_eq!(sum(&[of(u64::MAX, 2), of(1, 2), of(u64::MAX >> 1, 1)]), Some((u64::MAX, 1)));
    assert_eq!(sum(&[of(u64::MAX, 1), of(1, 3), of(2, 3)]), None);
    assert_eq!(sum(&[of(i64::MAX, 1), of(1, 3), of(-1, 3)]), or_none(Some((i64::MAX, 1))));
    assert_eq!(sum(&[of(i64::MIN, 1), of(-1, 3), of(1, 3)]), or_none(Some((i64::MIN, 1))));
}

/// Each first step, or the second one, has no result over the type.
#[test]
fn partial_sums_of_128_bits() {
    const MOST: i128 = i128::MAX;
    const P: i128 = (1 << 89) - 1;
    const Q: i128 = (1 << 107) - 1;
    let rows: [Row; 7] = [
        (&[(MOST, 1), (1, 1), (-1, 1)], Some((MOST, 1))),
        (&[(i128::MIN, 1), (-1, 3), (1, 3)], Some((i128::MIN, 1))),
        (&[(1, P), (1, Q), (-1, P)], Some((1, Q))),
        (&[(1, P), (1, Q), (-1, P), (1, 2)], Some((162259276829213363391578010288129, 324518553658426726783156020576254))),
        (&[(1, 3), (MOST, 1), (-MOST, 2), (-1, 3)], Some((MOST, 2))),
        (&[(1, P), (1, Q), (-1, Q), (-1, P)], Some((0, 1))),
        (&[(MOST, 1), (1, 3), (1, 3)], None),
    ];
    for (items, answer) in rows {
        let items: Vec<_> = items.iter().map(|(numer, denom)| of(*numer, *denom)).collect();
        assert_eq!((sum(&items), folded(&items)), (or_none(answer), None), "{items:?}");
    }
    let plain = [of(10i128.pow(38), 140567567005950441), of(1000, 1), of(23191389, 7)];
    assert_eq!(sum(&plain), Some((100000000000000465848728598229092148507, 140567567005950441)));
    assert_eq!(sum(&[of(MOST, 1), of(-1, 1), of(1, 1)]), Some((MOST, 1)));
    assert_eq!(sum(&[of(u128::MAX, 2), of(1, 2)]), Some((1 << 127, 1)));
}

/// Without numbers below 0, a sum may have shorter terms than a partial one.
#[test]
fn partial_sums_without_a_sign() {
    let thirds = [464227514736600367551753145u128, 928455029470403577522428935, 154742504911578531943678927].map(|denom| of(1, denom));
    assert_eq!((sum(&thirds), folded(&thirds)), (or_none(Some((9, 928455029470403577522428935))), None));
    let above = [of(u128::MAX, 3), of(1, u128::MAX), of(u128::MAX - 1, u128::MAX)];
    assert_eq!((sum(&above), folded(&above)), (or_none(Some((113427455640312821154458202477256070486, 1))), None));
    assert_eq!(sum(&[of(u128::MAX, 1), of(1, u128::MAX)]), None);
}

/// The sum by fractions of big integers, if it fits.
fn exact<T: Integer>(items: &[Reduced<T>]) -> Fields<T> {
    let whole = |n: &T| n.to_i128().and_then(BigRational::from_i128).or_else(|| BigRational::from_u128(n.to_u128()?)).unwrap();
    let sum: BigRational = items.iter().map(|x| whole(x.numer()) / whole(x.denom())).sum();
    let number = |n: Option<i128>, m: Option<u128>| n.and_then(T::from).or_else(|| T::from(m?));
    Some((number(sum.numer().to_i128(), sum.numer().to_u128())?, number(sum.denom().to_i128(), sum.denom().to_u128())?))
}

/// Optimized runs compare a million lists.
const LISTS: usize = if cfg!(debug_assertions) { 3_000 } else { 1_000_000 };

/// Compares random lists of up to 12 fractions. Of the sums, many fit the type and many do not, and many fit whose partial sums do not.
fn compare_random<T: Integer>(count: usize, mut fraction: impl FnMut(&mut Numbers) -> Reduced<T>) {
    let mut numbers = Numbers(11);
    let (mut fitting, mut refused_before) = (0, 0);
    for _ in 0..count {
        let length = numbers.below(7);
        let mut items: Vec<Reduced<T>> = (0..length).map(|_| fraction(&mut numbers)).collect();
        // Often some of them go out again.
        let out = items.clone().into_iter().filter(|_| numbers.below(3) > 0).filter_map(|item| Reduced::ZERO.checked_sub(item));
        items.extend(if length > 3 { out.collect() } else { vec![] });
        let (want, before) = (exact(&items), folded(&items));
        if cfg!(feature = "alloc") {
            assert_eq!(sum(&items), want, "{items:?}");
        } else {
            assert!([None, want].contains(&sum(&items)) && (before.is_none() || sum(&items) == want), "{items:?}");
        }
        fitting += usize::from(want.is_some());
        refused_before += usize::from(want.is_some() && before.is_none());
    }
    assert!(count / 10 < fitting && fitting < count / 10 * 9 && count / 100 < refused_before, "{fitting} and {refused_before} of {count}");
}

#[test]
fn random_lists_of_8_bits() {
    compare_random(LISTS / 10 * 4, |numbers| {
        let most = [4, 12, 127][numbers.below(3) as usize];
        of(numbers.word() as i8 >> numbers.below(8), 1 + numbers.below(most) as i8)
    });
}

#[test]
fn random_lists_of_16_bits() {
    compare_random(LISTS / 10 * 3, |numbers| {
        let most = [6, 60, 32767][numbers.below(3) as usize];
        of(numbers.word() as i16 >> numbers.below(16), 1 + numbers.below(most) as i16)
    });
}

#[test]
fn random_lists_of_64_bits() {
    compare_random(LISTS / 10 * 3, |numbers| {
        let most = [6, 1_000, 1 << 40][numbers.below(3) as usize];
        of(numbers.word() as i64 >> numbers.below(8), 1 + numbers.below(most) as i64)
    });
}

#[test]
fn random_lists_of_128_bits() {
    compare_random(LISTS / 10, |numbers| {
        let most = [6, 1_000, 1 << 40][numbers.below(3) as usize];
        let denom = [1, (1 << 64) - 59, (1 << 85) + 1][numbers.below(3) as usize];
        of(numbers.wide() as i128 >> numbers.below(8), (1 + numbers.below(most) as i128) * denom)
    });
}
