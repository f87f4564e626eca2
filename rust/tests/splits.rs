//! Amounts split by shares and by weights: rows, and random lists over eleven types beside big integers.
//!
//! `BAKHSNEY_PAIRS` says how many lists each type gets; without it there are 400.
mod support;

use bakhsney::{integer::Integer, Reduced, SplitRefusal, WeightRefusal};
use core::fmt::Debug;
use num_traits::{FromPrimitive, One, Signed, ToPrimitive, Zero};
use original::BigRational;
use support::Numbers;

trait Number: Integer + ToPrimitive + FromPrimitive + Debug {}

impl<T: Integer + ToPrimitive + FromPrimitive + Debug> Number for T {}

fn big<T: ToPrimitive>(number: T) -> BigRational {
    BigRational::from_i128(number.to_i128().unwrap()).unwrap()
}

fn value<T: Number>(x: &Reduced<T>) -> BigRational {
    big(*x.numer()) / big(*x.denom())
}

/// The number in the type, if it fits.
fn in_type<T: Number>(whole: &BigRational) -> Option<T> {
    whole.to_integer().to_i128().and_then(T::from_i128)
}

/// The sums of the first shares.
fn sums_of(shares: &[BigRational]) -> Vec<BigRational> {
    let mut sum = BigRational::zero();
    let add = |share| {
        sum += share;
        sum.clone()
    };
    shares.iter().map(add).collect()
}

/// Whether both numbers of each sum of the first shares fit the type.
fn sums_fit<T: Number>(shares: &[BigRational]) -> bool {
    let numbers = |sum: &BigRational| [sum.numer().clone().into(), sum.denom().clone().into()];
    sums_of(shares).iter().flat_map(numbers).all(|number| in_type::<T>(&number).is_some())
}

/// The parts: the differences of the rounded sums of the first shares, times the amount. `None` if such a number does not fit.
fn parts_of<T: Number>(amount: T, shares: &[BigRational]) -> Option<Vec<T>> {
    let mut mark = BigRational::zero();
    let mut parts = Vec::new();
    for sum in sums_of(shares) {
        let next = (big(amount) * sum).round();
        in_type::<T>(&next)?;
        parts.push(in_type(&(&next - &mark))?);
        mark = next;
    }
    Some(parts)
}

/// What `split` returns, and the parts. With memory, no sum of the first shares has to fit.
fn wanted<T: Number>(amount: T, shares: &[BigRational]) -> Result<Vec<T>, SplitRefusal> {
    let one = shares.iter().sum::<BigRational>().is_one();
    if shares.iter().any(BigRational::is_negative) {
        Err(SplitRefusal::BelowZero)
    } else if ANY_SUM && !one {
        Err(SplitRefusal::NotOne)
    } else if !ANY_SUM && !sums_fit::<T>(shares) {
        Err(SplitRefusal::NotHeld)
    } else {
        match parts_of(amount, shares) {
            None => Err(SplitRefusal::NotHeld),
            Some(_) if !one => Err(SplitRefusal::NotOne),
            Some(parts) => Ok(parts),
        }
    }
}

fn compare<T: Number>(amount: T, shares: &[Reduced<T>]) -> bool {
    let exact: Vec<BigRational> = shares.iter().map(value).collect();
    let want = wanted(amount, &exact);
    let mut parts = vec![T::one(); shares.len()];
    let answer = bakhsney::split(amount, shares, &mut parts);
    check(amount, &exact, answer, &parts, want)
}

fn compare_weights<T: Number>(amount: T, weights: &[T]) -> bool {
    let exact: Vec<BigRational> = weights.iter().map(|&weight| big(weight)).collect();
    let total: BigRational = exact.iter().sum();
    let shares: Vec<BigRational> = exact.iter().map(|weight| if total.is_zero() { total.clone() } else { weight / &total }).collect();
    let want = if exact.iter().any(BigRational::is_negative) {
        Err(WeightRefusal::BelowZero)
    } else if in_type::<T>(&total).is_none() {
        Err(WeightRefusal::NotHeld)
    } else if total.is_zero() {
        Err(WeightRefusal::AllZero)
    } else {
        Ok(parts_of(amount, &shares).unwrap())
    };
    let mut parts = vec![T::one(); weights.len()];
    let answer = bakhsney::split_by_weights(amount, weights, &mut parts);
    check(amount, &shares, answer, &parts, want)
}

/// Compares an answer and the parts behind it with the wanted ones, and says whether the amount was split.
fn check<T: Number, E: Debug + PartialEq>(
    amount: T,
    shares: &[BigRational],
    answer: Result<(), E>,
    parts: &[T],
    want: Result<Vec<T>, E>,
) -> bool {
    match want {
        Err(why) => {
            assert_eq!(answer, Err(why), "{amount} {shares:?}");
            assert!(parts.iter().all(|&part| part == T::one()));
            false
        }
        Ok(want) => {
            assert_eq!((answer, parts), (Ok(()), &want[..]), "{amount} {shares:?}");
            assert_eq!(parts.iter().map(|&part| big(part)).sum::<BigRational>(), big(amount));
            let off = |(&part, share): (&T, &BigRational)| big(part) - big(amount) * share;
            assert!(parts.iter().zip(shares).map(off).all(|off| off.abs() < BigRational::one()));
            true
        }
    }
}

/// Shares that mostly add up to 1, in any order: a part of 1/k and the rest of it, for each of k denominators. `size` gives numbers that are
/// not below 0.
fn unlike_shares<T: Number>(dice: &mut Numbers, size: impl Fn(u128) -> T) -> Vec<Reduced<T>> {
    let pairs = 2 + dice.below(5);
    let count = T::from_u64(pairs).unwrap();
    let most = T::max_value() / count;
    let mut shares = Vec::new();
    for _ in 0..pairs {
        let denom = most - size(dice.of_any_length()) % most;
        let numer = size(dice.of_any_length()) % (denom + T::one());
        shares.push(Reduced::checked_new(numer, denom * count).unwrap());
        shares.push(Reduced::checked_new(denom - numer, denom * count).unwrap());
    }
    for i in (1..shares.len()).rev() {
        shares.swap(i, dice.below(i as u64 + 1) as usize);
    }
    if dice.below(8) == 0 {
        shares.pop();
    }
    shares
}

fn lists() -> u64 {
    std::env::var("BAKHSNEY_PAIRS").map_or(400, |text| text.parse().unwrap())
}

macro_rules! sweep {
    ($($name:ident $type:ident;)*) => {$(
        #[test]
        fn $name() {
            let mut dice = Numbers(11);
            let (mut by_shares, mut by_weights, mut long) = (0, 0, 0);
            for _ in 0..lists() {
                let size = dice.of_any_length() as $type;
                let amount = match dice.below(8) {
                    0 => $type::MIN,
                    1 => $type::MAX,
                    2 => size.wrapping_neg(),
                    _ => size,
                };
                let count = dice.below(6);
                let mut weights: Vec<$type> = (0..count).map(|_| ($type::MAX & dice.of_any_length() as $type) / 5).collect();
                if let (0, Some(last)) = (dice.below(8), weights.last_mut()) {
                    *last = dice.of_any_length() as $type;
                }
                by_weights += u64::from(compare_weights(amount, &weights));
                let total = weights.iter().fold(0, |sum: $type, &weight| sum.wrapping_add(weight));
                let share = |&weight: &$type| Reduced::checked_new(weight, if total == 0 { 1 } else { total });
                let shares: Option<Vec<Reduced<$type>>> = weights.iter().map(share).collect();
                by_shares += u64::from(shares.map_or(false, |shares| compare(amount, &shares)));
                if dice.below(4) == 0 {
                    let shares = unlike_shares(&mut dice, |size| size as $type & $type::MAX);
                    long += u64::from(!sums_fit::<$type>(&shares.iter().map(value).collect::<Vec<_>>()));
                    compare(amount, &shares);
                }
            }
            assert!(4 * by_shares > lists() && 4 * by_weights > lists() && 8 * long > lists(), "{by_shares} {by_weights} {long}");
        }
    )*};
}

sweep! {
    over_i8 i8;
    over_i16 i16;
    over_i32 i32;
    over_i64 i64;
    over_i128 i128;
    over_isize isize;
    over_u8 u8;
    over_u16 u16;
    over_u32 u32;
    over_u64 u64;
    over_usize usize;
}

fn split<T: Number, const N: usize>(amount: T, shares: [(T, T); N]) -> Result<[T; N], SplitRefusal> {
    let mut parts = [T::zero(); N];
    let shares = shares.map(|(numer, denom)| Reduced::checked_new(numer, denom).unwrap());
    bakhsney::split(amount, &shares, &mut parts).map(|()| parts)
}

fn split_by_weights<T: Number, const N: usize>(amount: T, weights: [T; N]) -> Result<[T; N], WeightRefusal> {
    let mut parts = [T::zero(); N];
    bakhsney::split_by_weights(amount, &weights, &mut parts).map(|()| parts)
}

/// Whether a sum of the first shares need not fit.
const ANY_SUM: bool = cfg!(feature = "alloc");

/// What `split` returns where a sum of the first shares does not fit.
fn with_memory<T, const N: usize>(parts: [T; N]) -> Result<[T; N], SplitRefusal> {
    if ANY_SUM {
        Ok(parts)
    } else {
        Err(SplitRefusal::NotHeld)
    }
}

/// Four parts of 1/4 over primes below 1,000,000, and the rests: the sum of the first four has a denominator of 82 binary digits.
const MILLIONTHS: [(i64, i64); 8] =
    [(314159, 3999932), (67957, 999979), (141421, 3999844), (577215, 3999836), (171456, 999983), (728151, 3999916), (214635, 999961), (105686, 999959)];

/// Two parts of 1/2 over primes of 126 binary digits, and the rests.
const LONG: [(i128, i128); 4] = [
    (1267650600228229401496703205377, 170141183460469231731687303715884105454),
    (2503155504993241601315571986085849, 170141183460469231731687303715884105322),
    (42535295231292007818807125180619423675, 85070591730234615865843651857942052727),
    (42534044287364811312121168142977983406, 85070591730234615865843651857942052661),
];

macro_rules! rows {
    ($($call:expr => $want:expr;)*) => {
        #[test]
        fn rows() {
            $(assert_eq!($call, $want, stringify!($call));)*
        }
    };
}

rows! {
    split(10_000_000_000i64, [(1, 3); 3]) => Ok([3333333333, 3333333334, 3333333333]);
    split(10_000_000_000i64, [(3333333333, 9999999999); 3]) => Ok([3333333333, 3333333334, 3333333333]);
    split(-100i8, [(1, 3); 3]) => Ok([-33, -34, -33]);
    split(i8::MIN, [(1, 2); 2]) => Ok([-64, -64]);
    split(i8::MAX, [(126, 127), (1, 127)]) => Ok([126, 1]);
    split(1usize, [(1, 7); 7]) => Ok([0, 0, 0, 1, 0, 0, 0]);
    split(100i8, [(4, 3), (-1, 3)]) => Err(SplitRefusal::BelowZero);
    split(1i8, [(1, 127), (1, 126)]) => Err(if ANY_SUM { SplitRefusal::NotOne } else { SplitRefusal::NotHeld });
    split(i8::MAX, [(2, 1), (1, 1)]) => Err(if ANY_SUM { SplitRefusal::NotOne } else { SplitRefusal::NotHeld });
    split(100i8, [(5, 122), (7, 118), (28, 61), (26, 59)]) => with_memory([4, 6, 46, 44]);
    split(i8::MIN, [(5, 122), (7, 118), (28, 61), (26, 59)]) => with_memory([-5, -8, -59, -56]);
    split(10_000_000_000i64, MILLIONTHS) => with_memory([785410852, 679584271, 353566289, 1443096667, 1714589148, 1820415729, 2146433711, 1056903333]);
    split(-10_000_000_000i64, MILLIONTHS) => with_memory([-785410852, -679584271, -353566289, -1443096667, -1714589148, -1820415729, -2146433711, -1056903333]);
    split(0i64, MILLIONTHS) => with_memory([0; 8]);
    split(1i64, MILLIONTHS) => with_memory([0, 0, 0, 0, 0, 1, 0, 0]);
    split(i128::MIN, LONG) => with_memory([-1267650600228229401496703205377, -2503155504993241601315571986085849, -85070590462584015637614250361238847487, -85068088574729622624242336285955967015]);
    split(-7i128, LONG) => with_memory([0, 0, -4, -3]);
    split(u128::MAX, LONG.map(|(numer, denom)| (numer as u128, denom as u128))) => with_memory([2535301200456458802993406410754, 5006311009986483202631143972171698, 170141180925168031275228500722477694974, 170136177149459245248484672571911934029]);
    split(100i8, [(1, 3); 2]) => Err(SplitRefusal::NotOne);
    split(0i8, []) => Err(SplitRefusal::NotOne);
    split_by_weights(10_000_000_000i64, [1, 1, 1]) => Ok([3333333333, 3333333334, 3333333333]);
    split_by_weights(100i8, [1, 1, 1]) => Ok([33, 34, 33]);
    split_by_weights(-100i8, [1, 1, 1]) => Ok([-33, -34, -33]);
    split_by_weights(5u8, [1, 2, 3]) => Ok([1, 2, 2]);
    split_by_weights(5u8, [3, 2, 1]) => Ok([3, 1, 1]);
    split_by_weights(-1isize, [1, 1]) => Ok([-1, 0]);
    split_by_weights(i8::MIN, [127, 0]) => Ok([-128, 0]);
    split_by_weights(i8::MIN, [0, 1, 126]) => Ok([0, -1, -127]);
    split_by_weights(i8::MAX, [64, 63]) => Ok([64, 63]);
    split_by_weights(i128::MAX, [1, i128::MAX - 2, 1]) => Ok([1, i128::MAX - 2, 1]);
    split_by_weights(1i8, [2, -1]) => Err(WeightRefusal::BelowZero);
    split_by_weights(1i8, [64, 64]) => Err(WeightRefusal::NotHeld);
    split_by_weights(0i8, [0, 0]) => Err(WeightRefusal::AllZero);
    split_by_weights(0i8, []) => Err(WeightRefusal::AllZero);
}

#[test]
fn other_lengths() {
    let mut parts = [7, 7];
    assert_eq!(bakhsney::split(1, &[Reduced::<i8>::ONE], &mut parts), Err(SplitRefusal::Length));
    assert_eq!(bakhsney::split_by_weights(1i8, &[0, 0, -1], &mut parts), Err(WeightRefusal::Length));
    assert_eq!(parts, [7, 7]);
}

/// Two equal shares and the rest of 1, at any places.
#[test]
fn equal_shares_get_near_parts() {
    for (denom, numer) in (1..=30i8).flat_map(|denom| (0..=denom / 2).map(move |numer| (denom, numer))) {
        let [share, rest] = [numer, denom - 2 * numer].map(|numer| Reduced::checked_new(numer, denom).unwrap());
        for (first, second) in [(0, 1), (0, 2), (1, 2)] {
            let mut shares = [rest; 3];
            shares[first] = share;
            shares[second] = share;
            for amount in i8::MIN..=i8::MAX {
                let mut parts = [0; 3];
                assert_eq!(bakhsney::split(amount, &shares, &mut parts), Ok(()));
                assert!((i16::from(parts[first]) - i16::from(parts[second])).abs() <= 1, "{amount} {shares:?} {parts:?}");
            }
        }
    }
}
