//! `Total`: a sum of any number of fractions that loses nothing, and takes more memory by itself.
//!
//! The proved calls work in slots that their caller gives, with one slot for each denominator. Here the slots are in a `Vec`. The
//! proved calls require a denominator above 0 and a numerator below 2^64 in magnitude. Each `Reduced` of at most 64 bits has these.
//! All other fractions go into one `RoomSum`.
use super::integer::Integer;
use super::numbers::{is_short, of_short, of_wide, signed, Numbers};
use super::reduced::Reduced;
use super::room_sum::{text_from, RoomSum};
use crate::proved::ratio_decimal::rounding_rule::Rounding;
use crate::proved::ratio_slots as proved;
use crate::proved::ratio_slots::{Joined, NoSum, OrderRefusal, ReadRefusal, Refusal, Slot, Tally, WideFraction};
use alloc::string::String;
use alloc::vec;
use alloc::vec::Vec;
use core::cmp::Ordering;
use core::fmt;
use core::iter::Sum;
use core::marker::PhantomData;
use core::ops::{AddAssign, SubAssign};

/// A total of any number of fractions. It loses nothing: each addition is exact, in any order, though a sum on the way may fit no
/// integer type. num-rational has no such type.
///
/// A total has one slot for each denominator that it was given, and takes more memory by itself. `add` takes a few nanoseconds,
/// and computes no greatest common divisor. Reads take longer. The time of `sum`, `mean` and `to_f64` grows with the square of the number of
/// denominators, and that of `decimal` with the number, except beside a tie.
///
/// Someone who chose the denominators before can hardly make additions slow. From about 1,000 slots on a table has a random length, and in a
/// table of another length, other denominators collide. Below that, an addition takes less than a microsecond at worst. Without the feature
/// `std` no length is random: there, additions of chosen denominators can be slow, but never wrong.
///
/// If all of a denominator's fractions went out again, its slot becomes free when the total next takes memory. So the memory grows with the
/// denominators that are in it at one time, as in a window that moves.
///
/// A slot takes numbers below 2^64. Fractions over `i128` and `u128` may have greater ones, and so may products. Such fractions go into one
/// sum over their common denominator. To add one takes a third of a microsecond while they have one denominator, and as long again for
/// each other one. With a thousand of their denominators, `sum` and `mean` take a millisecond, and `compare` may take a tenth of a second.
///
/// ```
/// use num_rational::{Reduced, Rounding, Total};
///
/// let mut total = Total::new();
/// for denom in 1..=127 {
///     total.add(Reduced::checked_new(1i8, denom).unwrap());
/// }
/// assert_eq!(total.sum(), Ok(None)); // does not fit
/// assert_eq!(total.decimal(10, Rounding::HalfEven).unwrap(), "5.4253345926");
/// for denom in 3..=127 {
///     total -= Reduced::checked_new(1, denom).unwrap();
/// }
/// assert_eq!(total.sum(), Ok(Reduced::checked_new(3, 2)));
/// ```
///
/// Threads may share the work, since the order changes nothing: each takes a total of its part, and `merge` or `sum` joins them.
///
/// ```
/// use num_rational::{Reduced64, Total};
///
/// let cents: Vec<Reduced64> = (0..1000).map(|n| Reduced64::checked_new(n, 100).unwrap()).collect();
/// let total: Total<i64> = std::thread::scope(|scope| {
///     let parts: Vec<_> = cents.chunks(250).map(|part| scope.spawn(|| part.iter().sum::<Total<i64>>())).collect();
///     parts.into_iter().map(|part| part.join().unwrap()).sum()
/// });
/// assert_eq!(total.sum(), Ok(Some(4995.into())));
/// ```
#[derive(Clone)]
pub struct Total<T = i64> {
    pub(super) slots: Vec<Slot>,
    pub(super) tally: Tally,
    /// How many slots were empty at the last count.
    empty: usize,
    /// How many additions came, or will come, between the last count and the next one.
    pause: u64,
    /// The weight at which the next count comes.
    next_count: u64,
    /// The sum of the fractions that no slot takes.
    pub(super) wide: RoomSum,
    of: PhantomData<fn() -> T>,
}

/// The error of the reads of a `Total`, such as `sum`: the least common multiple of the denominators in its slots is not below 2^(2^20).
/// Even then `decimal` mostly has a result.
///
/// ```
/// use num_rational::{Reduced, TooLong, Total};
///
/// let sum: Result<Option<Reduced<i8>>, TooLong> = Total::new().sum();
/// assert_eq!(sum, Ok(Some(Reduced::ZERO)));
/// ```
#[derive(Clone, Copy, Debug, PartialEq, Eq, Hash)]
pub struct TooLong(pub(super) ());

impl fmt::Display for TooLong {
    fn fmt(&self, f: &mut fmt::Formatter<'_>) -> fmt::Result {
        f.pad("the common denominator is too long")
    }
}

#[cfg(feature = "std")]
impl std::error::Error for TooLong {}

/// The additions between two counts in a small table. A full one makes no search long.
const SHORTEST_PAUSE: usize = 64;

/// A table for so many denominators has a random length.
const LONG: usize = 512;

/// The greatest number of slots that a `Vec` takes.
const MOST: usize = isize::MAX as usize / core::mem::size_of::<Slot>();

/// A random number.
#[cfg(feature = "std")]
#[inline]
fn by_chance() -> u64 {
    use core::hash::{BuildHasher, Hasher};
    std::collections::hash_map::RandomState::new().build_hasher().finish()
}

/// Without `std` nothing is random.
#[cfg(not(feature = "std"))]
#[inline]
fn by_chance() -> u64 {
    0
}

impl<T> Total<T> {
    /// The total of no fractions. It takes no memory before the first addition.
    ///
    /// ```
    /// use num_rational::{Reduced64, Total};
    ///
    /// assert_eq!(Total::new().sum(), Ok(Some(Reduced64::ZERO)));
    /// ```
    #[inline]
    #[must_use]
    pub const fn new() -> Total<T> {
        Total { slots: Vec::new(), tally: Tally { weight: 0, count: 0 }, empty: 0, pause: 0, next_count: 0, wide: RoomSum::EMPTY, of: PhantomData }
    }

    /// How many fractions went in, less those that went out.
    ///
    /// ```
    /// use num_rational::{Reduced, Total};
    ///
    /// let mut total: Total<i64> = [1, 2, 3].map(Reduced::from).iter().collect();
    /// total.subtract(Reduced::from(2));
    /// assert_eq!(total.count(), 2);
    /// ```
    #[inline]
    #[must_use]
    pub fn count(&self) -> i64 {
        self.tally.count
    }

    /// Counts the empty slots, and grows if no more than half are empty. So a search is short.
    ///
    /// A quarter of the slots may fill up before the next count. It comes later if no denominator was new since the last one: a
    /// count then costs nothing much for each addition.
    #[cold]
    pub(super) fn count_empty(&mut self) {
        let before = self.empty;
        self.empty = proved::count_free(&self.slots);
        if 2 * self.empty <= self.slots.len() {
            self.grow(0);
        }
        let quarter = (self.slots.len() / 4).max(SHORTEST_PAUSE) as u64;
        self.pause = if self.empty == before { (2 * self.pause).min(8 * quarter) } else { quarter };
        self.next_count = self.tally.weight + self.pause;
    }

    /// Moves the fractions that are not 0 into slots for them and so many more denominators, or at least for as many again.
    fn grow(&mut self, more: usize) {
        let left = proved::leave_zeros(&mut self.slots);
        let more = more.max(left);
        let chance = if left + more < LONG { 0 } else { by_chance() };
        let length = proved::next_length(left as u64, more as u64, chance, MOST as u64);
        let mut slots = vec![Slot::EMPTY; length.expect("a total of more slots than a Vec takes") as usize];
        for slot in &self.slots[..left] {
            if proved::put_loose(&mut slots, slot.numer(), slot.denom()).is_err() {
                unreachable!("these are more slots");
            }
        }
        self.empty = slots.len() - left;
        self.slots = slots;
    }

    /// Puts numerators of any size into slots for them, or returns `None` if one becomes a number of more than 128 bits.
    #[cfg(feature = "serde")]
    pub(super) fn put_loose(&mut self, fractions: &[Slot]) -> Option<()> {
        self.grow(fractions.len());
        fractions.iter().try_for_each(|slot| proved::put_loose(&mut self.slots, slot.numer(), slot.denom())).ok()
    }

    /// Adds the fraction of these numbers.
    // A call with the numbers in memory would take a fifth longer.
    #[inline(always)]
    #[track_caller]
    pub(super) fn add_numbers(&mut self, fraction: Numbers) {
        match fraction {
            Numbers::Short(numer, denom) => self.put_short::<1>(numer, denom),
            Numbers::Wide(fraction) => self.put_wide(fraction, false),
        }
    }

    /// Puts a fraction into its slot, and takes more slots where there is none. The count changes by `STEP`.
    #[inline]
    #[track_caller]
    fn put_short<const STEP: i64>(&mut self, numer: i128, denom: u64) {
        if self.tally.weight >= self.next_count {
            self.count_empty();
        }
        loop {
            match proved::put(&mut self.slots, &mut self.tally, numer, denom, STEP) {
                Ok(()) => return,
                Err(Refusal::MoreRoom) => self.count_empty(), // none is empty
                Err(Refusal::TooMany) => refuse_more(),
            }
        }
    }

    /// Adds a fraction that no slot takes, or takes it out.
    #[inline(never)]
    #[track_caller]
    fn put_wide(&mut self, fraction: WideFraction, out: bool) {
        if self.tally.weight == proved::MOST_WEIGHT || !self.wide.takes(1) {
            refuse_more();
        }
        self.wide.put(fraction, out);
        self.tally.weight += 1;
        self.tally.count += if out { -1 } else { 1 };
    }

    /// The sum of all fractions, in a room.
    fn in_room(&self) -> RoomSum {
        let mut sum = RoomSum::of_slots(&self.slots);
        sum.put_all(&self.wide, false);
        sum
    }
}

impl<T: Integer> Total<T> {
    /// Adds the fraction. `+=` does the same.
    ///
    /// # Panics
    ///
    /// If the total has had 2^63-1 additions. Only merges of merged totals get there. Where a pointer has 32 bits, also if 2^30-1
    /// fractions with a number of 2^64 or more have come before such a fraction.
    ///
    /// ```
    /// use num_rational::{Reduced, Total};
    ///
    /// let mut total = Total::new();
    /// total.add(Reduced::checked_new(1i8, 36).unwrap());
    /// total.add(Reduced::checked_new(1i8, 28).unwrap());
    /// assert_eq!(total.sum(), Ok(Reduced::checked_new(4, 63)));
    /// ```
    #[inline]
    #[track_caller]
    pub fn add(&mut self, fraction: Reduced<T>) {
        self.add_numbers(Numbers::of(fraction));
    }

    /// Takes the fraction out again, whether it was added or not. `-=` does the same.
    ///
    /// # Panics
    ///
    /// If the total has had 2^63-1 additions, as `add` does. Taking out counts as an addition, too.
    ///
    /// ```
    /// use num_rational::{Reduced, Total};
    ///
    /// let mut total: Total<i8> = Reduced::checked_new(1, 127).into_iter().collect();
    /// total.subtract(Reduced::from(127));
    /// total.subtract(Reduced::checked_new(1, 127).unwrap());
    /// assert_eq!(total.sum(), Ok(Some(Reduced::from(-127))));
    /// ```
    #[inline]
    #[track_caller]
    pub fn subtract(&mut self, fraction: Reduced<T>) {
        match Numbers::of(fraction) {
            Numbers::Short(numer, denom) => self.put_short::<-1>(-numer, denom),
            Numbers::Wide(fraction) => self.put_wide(fraction, true),
        }
    }

    /// Adds the product of two fractions, which need not fit the type. Over `i128` and `u128`, it is `None`, and nothing has changed, if
    /// one of the product's lowest terms is 2^128 or more, the numerator without its sign. Over a type of at most 64 bits, no product is
    /// so great. It is also `None` where `add` panics: if the total has had 2^63-1 additions.
    ///
    /// ```
    /// use num_rational::{Reduced, Total};
    ///
    /// let mut total = Total::new();
    /// assert_eq!(total.add_product(i64::MAX.into(), i64::MAX.into()), Some(()));
    /// assert_eq!(total.sum(), Ok(None));
    /// assert_eq!(total.add_product((-i64::MAX).into(), (i64::MAX - 1).into()), Some(()));
    /// assert_eq!(total.sum(), Ok(Some(i64::MAX.into())));
    /// ```
    pub fn add_product(&mut self, left: Reduced<T>, right: Reduced<T>) -> Option<()> {
        if self.tally.weight == proved::MOST_WEIGHT || !self.wide.takes(1) {
            return None;
        }
        self.add_numbers(Numbers::of_product(left, right)?);
        Some(())
    }

    /// The total of the products of two lists, item by item. It is `None` if the lists have different lengths. Over `i128` and `u128`, it
    /// is also `None` if one of the lowest terms of a product is 2^128 or more, the numerator without its sign.
    ///
    /// ```
    /// use num_rational::{Reduced64, Total};
    ///
    /// let shares = [(1, 2), (1, 3), (1, 6)].map(|(numer, denom)| Reduced64::checked_new(numer, denom).unwrap());
    /// let prices = [30, 45, 48].map(Reduced64::from);
    /// assert_eq!(Total::dot(&shares, &prices).unwrap().sum(), Ok(Some(38.into())));
    /// assert!(Total::dot(&shares, &prices[1..]).is_none());
    /// ```
    pub fn dot(left: &[Reduced<T>], right: &[Reduced<T>]) -> Option<Total<T>> {
        if left.len() != right.len() {
            return None;
        }
        let mut total = Total::new();
        for (x, y) in left.iter().zip(right) {
            total.add_product(*x, *y)?;
        }
        Some(total)
    }

    /// Adds each fraction of the other total. `+=` does the same. The order of merges changes nothing.
    ///
    /// # Panics
    ///
    /// If both totals together have had more than 2^63-1 additions. Only merges of merged totals get there.
    ///
    /// ```
    /// use num_rational::{Reduced, Total};
    ///
    /// let [mut left, right] = [36, 28].map(|denom| Reduced::checked_new(1i8, denom).into_iter().collect::<Total<i8>>());
    /// left.merge(&right);
    /// assert_eq!((left.sum(), left.count()), (Ok(Reduced::checked_new(4, 63)), 2));
    /// ```
    #[track_caller]
    pub fn merge(&mut self, other: &Total<T>) {
        self.pour(other, false);
    }

    /// Takes out each fraction of the other total, whether it was added or not. `-=` does the same. So the difference of two totals
    /// is exact.
    ///
    /// # Panics
    ///
    /// If both totals together have had more than 2^63-1 additions, as `merge` does. Taking out counts as an addition, too.
    ///
    /// ```
    /// use num_rational::{Reduced, Total};
    ///
    /// let [mut left, right] = [36, 28].map(|denom| Reduced::checked_new(1i8, denom).into_iter().collect::<Total<i8>>());
    /// left.take_out(&right);
    /// assert_eq!((left.sum(), left.count()), (Ok(Reduced::checked_new(-1, 126)), 0));
    /// ```
    #[track_caller]
    pub fn take_out(&mut self, other: &Total<T>) {
        self.pour(other, true);
    }

    /// Puts all slots of another total in, or takes them out, and takes more slots where it needs them. What no slot takes goes in or out
    /// beside them.
    #[track_caller]
    fn pour(&mut self, other: &Total<T>, out: bool) {
        if !self.wide.takes(other.wide.fractions()) {
            refuse_more();
        }
        loop {
            match proved::merge_slots(&mut self.slots, &mut self.tally, &other.slots, other.tally, out) {
                Ok(()) => break,
                Err(Refusal::MoreRoom) => self.grow(other.slots.len() - proved::count_free(&other.slots)),
                Err(Refusal::TooMany) => refuse_more(),
            }
        }
        self.wide.put_all(&other.wide, out);
        self.count_empty();
    }

    /// The sum in lowest terms, or `None` if they do not fit the type. The sum of no fractions is 0.
    ///
    /// # Errors
    ///
    /// `TooLong` if the least common multiple of the denominators is not below 2^(2^20). With at most 16,384 different denominators
    /// it always is, if one of 2^64 or more counts as two.
    ///
    /// ```
    /// use num_rational::{Reduced, Total};
    ///
    /// let mut total = Total::new();
    /// total.add(Reduced::from(127i8));
    /// total.add(Reduced::checked_new(1i8, 127).unwrap());
    /// assert_eq!(total.sum(), Ok(None));
    /// total.subtract(Reduced::checked_new(1i8, 127).unwrap());
    /// assert_eq!(total.sum(), Ok(Some(Reduced::from(127))));
    /// ```
    pub fn sum(&self) -> Result<Option<Reduced<T>>, TooLong> {
        self.read(proved::digits_of_read, proved::sum_of, Joined::wide_sum)
    }

    /// The mean, which is the sum divided by the count, in lowest terms. `None` if they do not fit the type, or if the count is not
    /// above 0.
    ///
    /// # Errors
    ///
    /// `TooLong` where `sum` returns it.
    ///
    /// ```
    /// use num_rational::{Reduced, Total};
    ///
    /// let total: Total<i8> = [100, 127, 127].map(Reduced::from).iter().sum();
    /// assert_eq!(total.sum(), Ok(None)); // 354
    /// assert_eq!(total.mean(), Ok(Some(Reduced::from(118))));
    /// assert_eq!(Total::<i8>::new().mean(), Ok(None));
    /// ```
    pub fn mean(&self) -> Result<Option<Reduced<T>>, TooLong> {
        let count = self.tally.count;
        self.read(proved::digits_of_read, |slots, room| proved::mean_of(slots, count, room), |sum, room| sum.wide_mean(count, room))
    }

    /// The float nearest to the sum, rounded once, whether the sum fits the type or not. If two are equally near, it is the one
    /// whose last bit is 0.
    ///
    /// # Errors
    ///
    /// `TooLong` where `sum` returns it.
    ///
    /// ```
    /// use num_rational::{Reduced64, Total};
    ///
    /// let total: Total<i64> = (1..=1000).map(|denom| Reduced64::checked_new(1, denom).unwrap()).sum();
    /// assert_eq!(total.sum(), Ok(None));
    /// assert_eq!(total.to_f64(), Ok(7.485470860550345));
    /// ```
    pub fn to_f64(&self) -> Result<f64, TooLong> {
        if !self.wide.is_empty() {
            return self.in_room().read(Joined::to_f64);
        }
        let mut room = vec![0; proved::digits_of_read(&self.slots)];
        proved::float_of(&self.slots, &mut room).map_err(refused)
    }

    /// The sum as a decimal with so many places, rounded once by the rule, whether it fits the type or not. There are always as
    /// many digits behind the point, and without places no point. A sum that is rounded to 0 has no minus.
    ///
    /// Over many denominators, this takes one pass over them. It takes as long as `to_f64` only if the sum is a number where the
    /// rule's result changes, such as a tie, or lies within 1/2^64 of the last place of one, or if a fraction with a number of 2^64 or
    /// more went in or out.
    ///
    /// # Errors
    ///
    /// `TooLong` where `sum` returns it, but only beside such a number, after such a fraction, or with more than 150,000 places.
    ///
    /// # Panics
    ///
    /// If the text may be too long for the memory of the machine.
    ///
    /// ```
    /// use num_rational::{Reduced64, Rounding, Total};
    ///
    /// let total: Total<i64> = (1..=1000).map(|denom| Reduced64::checked_new(1, denom).unwrap()).sum();
    /// assert_eq!(total.sum(), Ok(None));
    /// assert_eq!(total.decimal(20, Rounding::HalfEven).unwrap(), "7.48547086055034491266");
    /// ```
    #[track_caller]
    pub fn decimal(&self, places: u32, rule: Rounding) -> Result<String, TooLong> {
        // With 32 bits for a pointer, the proved call could not count so many bytes.
        assert!(u64::from(places) <= (isize::MAX / 4) as u64, "too many places");
        if !self.wide.is_empty() {
            return self.in_room().decimal(places, rule);
        }
        let mut room = vec![0; proved::decimal_digits_of(&self.slots, places)];
        let mut text = vec![0; proved::decimal_bytes_of(&self.slots, places)];
        let start = proved::put_decimal_of(&self.slots, places, rule, &mut room, &mut text).map_err(refused)?;
        Ok(text_from(text, start))
    }

    /// The order of the sum and 0, whether the sum fits the type or not.
    ///
    /// # Errors
    ///
    /// `TooLong` where `sum` returns it.
    ///
    /// ```
    /// use num_rational::{Reduced, Total};
    /// use std::cmp::Ordering;
    ///
    /// let mut total: Total<i8> = [100, 100].map(Reduced::from).iter().sum();
    /// assert_eq!((total.sum(), total.sign()), (Ok(None), Ok(Ordering::Greater)));
    /// total.subtract(Reduced::from(100));
    /// total.subtract(Reduced::from(100));
    /// assert_eq!(total.sign(), Ok(Ordering::Equal));
    /// ```
    pub fn sign(&self) -> Result<Ordering, TooLong> {
        if !self.wide.is_empty() {
            return self.in_room().read(Joined::sign);
        }
        let mut room = vec![0; proved::digits_of_read(&self.slots)];
        proved::sign_of(&self.slots, &mut room).map_err(refused)
    }

    /// The order of this sum and another one, whether they fit the type or not.
    ///
    /// # Errors
    ///
    /// `TooLong` if the least common multiple of the denominators of both totals is not below 2^(2^20). So a `Total` is not
    /// `PartialOrd`.
    ///
    /// ```
    /// use num_rational::{Reduced, Total};
    /// use std::cmp::Ordering;
    ///
    /// let thirds: Total<i8> = [100, 100, 100].map(|n| Reduced::checked_new(n, 3).unwrap()).iter().sum();
    /// let mut whole: Total<i8> = [Reduced::from(100)].iter().sum();
    /// assert_eq!(thirds.compare(&whole), Ok(Ordering::Equal));
    /// whole.add(Reduced::checked_new(1, 127).unwrap());
    /// assert_eq!(thirds.compare(&whole), Ok(Ordering::Less));
    /// ```
    pub fn compare(&self, other: &Total<T>) -> Result<Ordering, TooLong> {
        if self.wide.is_empty() && other.wide.is_empty() {
            return self.against(&other.slots);
        }
        let mut difference = self.in_room();
        difference.put_all(&other.in_room(), true);
        difference.read(Joined::sign)
    }

    /// The order of this sum and a fraction, as of what was spent and a budget.
    ///
    /// # Errors
    ///
    /// `TooLong` where `compare` with the total of this one fraction returns it.
    ///
    /// ```
    /// use num_rational::{Reduced64, Total};
    ///
    /// let spent: Total<i64> = [1999, 2450, 551].map(|cents| Reduced64::checked_new(cents, 100).unwrap()).iter().sum();
    /// assert!(spent.compare_with(50.into())?.is_le());
    /// assert!(spent.compare_with(49.into())?.is_gt());
    /// # Ok::<(), num_rational::TooLong>(())
    /// ```
    pub fn compare_with(&self, fraction: Reduced<T>) -> Result<Ordering, TooLong> {
        match Numbers::of(fraction) {
            Numbers::Short(numer, denom) if self.wide.is_empty() => self.against(&[Slot::new(denom, numer)]),
            _ => self.compare(&[fraction].iter().sum()),
        }
    }

    /// The order of this sum and that of the slots. All fractions are in slots.
    fn against(&self, others: &[Slot]) -> Result<Ordering, TooLong> {
        let mut difference = vec![Slot::EMPTY; self.slots.len() + others.len()];
        let mut room = vec![0; proved::digits_of_order(&self.slots, others)];
        match proved::order_of(&self.slots, others, &mut difference, &mut room) {
            Ok(order) => Ok(order),
            Err(OrderRefusal::TooLong) => Err(TooLong(())),
            Err(_) => unreachable!("the numerators of a total are above -2^127, and there is room"),
        }
    }

    /// The sum rounded once to a whole number by the rule, or `None` if that number does not fit the type. A sum that does not fit
    /// may have one that does.
    ///
    /// # Errors
    ///
    /// `TooLong` where `sum` returns it.
    ///
    /// ```
    /// use num_rational::{Reduced64, Rounding, Total};
    ///
    /// let total: Total<i64> = (1..=1000).map(|denom| Reduced64::checked_new(1, denom).unwrap()).sum();
    /// assert_eq!(total.sum(), Ok(None));
    /// assert_eq!(total.to_integer(Rounding::HalfEven), Ok(Some(7)));
    /// assert_eq!(total.to_integer(Rounding::Ceil), Ok(Some(8)));
    /// ```
    pub fn to_integer(&self, rule: Rounding) -> Result<Option<T>, TooLong> {
        if self.wide.is_empty() {
            let mut room = vec![0; proved::digits_of_read(&self.slots)];
            let number = proved::integer_of(&self.slots, rule, &mut room).map_err(refused)?;
            return Ok(number.and_then(T::from));
        }
        let whole = self.in_room().read(|sum, room| sum.wide_round_to(1, rule, room))?;
        Ok(whole.and_then(|whole| signed(whole.negative, whole.numer)))
    }

    /// The sum rounded once to a multiple of `1/parts` by the rule, such as cents for 100. It is `None` if the lowest terms of the
    /// multiple do not fit the type, or if `parts` is not above 0. A sum that does not fit may have a multiple that does.
    ///
    /// # Errors
    ///
    /// `TooLong` where `sum` returns it.
    ///
    /// ```
    /// use num_rational::{Reduced64, Rounding, Total};
    ///
    /// let total: Total<i64> = (1..=1000).map(|denom| Reduced64::checked_new(1, denom).unwrap()).sum();
    /// assert_eq!(total.sum(), Ok(None));
    /// assert_eq!(total.round_to(100, Rounding::HalfEven), Ok(Reduced64::checked_new(749, 100)));
    /// assert_eq!(total.round_to(0, Rounding::HalfEven), Ok(None));
    /// ```
    pub fn round_to(&self, parts: T, rule: Rounding) -> Result<Option<Reduced<T>>, TooLong> {
        if parts <= T::zero() {
            return Ok(None);
        }
        let parts = parts.to_u128().expect("it is above 0");
        let of_slots = |slots: &[Slot], room: &mut [u64]| match u64::try_from(parts) {
            Ok(parts) => proved::multiple_of(slots, parts, rule, room),
            Err(_) => Ok(None),
        };
        self.read(proved::digits_of_multiple, of_slots, |sum, room| sum.wide_round_to(parts, rule, room))
    }

    /// Calls `of_slots` with room for so many digits, and `of_room` where a fraction is in no slot, or the type has more than 64 bits
    /// and `of_slots` has no result. The numbers that they return become a fraction, if they fit the type.
    fn read(
        &self,
        digits: impl Fn(&[Slot]) -> usize,
        of_slots: impl FnOnce(&[Slot], &mut [u64]) -> Result<Option<(i128, u64)>, ReadRefusal>,
        of_room: impl FnOnce(Joined, &mut [u64]) -> Result<Option<WideFraction>, NoSum>,
    ) -> Result<Option<Reduced<T>>, TooLong> {
        if self.wide.is_empty() {
            let mut room = vec![0; digits(&self.slots)];
            let terms = of_slots(&self.slots, &mut room).map_err(refused)?;
            if terms.is_some() || is_short::<T>() {
                return Ok(terms.and_then(of_short));
            }
        }
        Ok(self.in_room().read(of_room)?.and_then(of_wide))
    }
}

#[cold]
#[track_caller]
fn refuse_more() -> ! {
    panic!("a total of more than 2^63-1 additions")
}

/// The error of a read that had enough room.
fn refused(refusal: ReadRefusal) -> TooLong {
    debug_assert_eq!(refusal, ReadRefusal::TooLong);
    TooLong(())
}

impl<T> Default for Total<T> {
    #[inline]
    fn default() -> Total<T> {
        Total::new()
    }
}

impl<T> fmt::Debug for Total<T> {
    fn fmt(&self, f: &mut fmt::Formatter<'_>) -> fmt::Result {
        f.debug_struct("Total").field("count", &self.count()).finish_non_exhaustive()
    }
}

impl<T: Integer> AddAssign<Reduced<T>> for Total<T> {
    /// # Panics
    ///
    /// If `add` panics.
    #[inline]
    #[track_caller]
    fn add_assign(&mut self, fraction: Reduced<T>) {
        self.add(fraction);
    }
}

impl<T: Integer> SubAssign<Reduced<T>> for Total<T> {
    /// # Panics
    ///
    /// If `subtract` panics.
    #[inline]
    #[track_caller]
    fn sub_assign(&mut self, fraction: Reduced<T>) {
        self.subtract(fraction);
    }
}

impl<T: Integer> AddAssign<&Total<T>> for Total<T> {
    /// # Panics
    ///
    /// If `merge` panics.
    #[track_caller]
    fn add_assign(&mut self, other: &Total<T>) {
        self.merge(other);
    }
}

impl<T: Integer> SubAssign<&Total<T>> for Total<T> {
    /// # Panics
    ///
    /// If `take_out` panics.
    #[track_caller]
    fn sub_assign(&mut self, other: &Total<T>) {
        self.take_out(other);
    }
}

/// The items are added by `extend`, and make a total by `collect` and by `sum`.
macro_rules! adds {
    ($([$($a:lifetime)?] $Item:ty: $item:ident => $fraction:expr;)*) => {$(
        impl<$($a,)? T: Integer $(+ $a)?> Extend<$Item> for Total<T> {
            /// # Panics
            ///
            /// If `add` panics.
            #[inline]
            #[track_caller]
            fn extend<I: IntoIterator<Item = $Item>>(&mut self, items: I) {
                for $item in items {
                    self.add($fraction);
                }
            }
        }

        impl<$($a,)? T: Integer $(+ $a)?> FromIterator<$Item> for Total<T> {
            #[inline]
            fn from_iter<I: IntoIterator<Item = $Item>>(items: I) -> Total<T> {
                let mut total = Total::new();
                total.extend(items);
                total
            }
        }

        impl<$($a,)? T: Integer $(+ $a)?> Sum<$Item> for Total<T> {
            #[inline]
            fn sum<I: Iterator<Item = $Item>>(items: I) -> Total<T> {
                items.collect()
            }
        }
    )*};
}

adds! {
    [] Reduced<T>: item => item;
    ['a] &'a Reduced<T>: item => *item;
}

/// The total of all parts, as threads that share the work need it.
impl<T: Integer> Sum for Total<T> {
    /// # Panics
    ///
    /// If `merge` panics.
    #[track_caller]
    fn sum<I: Iterator<Item = Total<T>>>(parts: I) -> Total<T> {
        let mut total = Total::new();
        for part in parts {
            total.merge(&part);
        }
        total
    }
}

#[cfg(test)]
mod tests {
    use super::{proved, Total, SHORTEST_PAUSE};
    use crate::Reduced64;

    /// Each denominator is new. A large table is never fuller than three quarters, and at most seven ninths of it are empty.
    #[test]
    fn a_large_table_is_neither_full_nor_empty() {
        let mut total = Total::new();
        for denom in 1..=20_000 {
            total.add(Reduced64::checked_new(1, denom).unwrap());
            let (slots, taken) = (total.slots.len(), denom as usize);
            if slots > 4 * SHORTEST_PAUSE {
                assert!(4 * taken <= 3 * slots && 2 * slots <= 9 * taken, "{taken} in {slots}");
            }
        }
        assert_eq!(proved::count_free(&total.slots), total.slots.len() - 20_000);
    }

    /// 12 are more than half of 16 slots.
    #[test]
    fn a_few_denominators_take_few_slots() {
        let mut total = Total::new();
        for n in 0..10_000 {
            total.add(Reduced64::checked_new(1, 1 + n % 12).unwrap());
        }
        assert_eq!(total.slots.len(), 32);
    }

    /// Each denominator is new, and 100 are in the window. A denominator that went out again leaves its slot.
    #[test]
    fn a_window_that_moves_takes_few_slots() {
        let mut total = Total::new();
        for denom in 1..=20_000 {
            total.add(Reduced64::checked_new(1, denom).unwrap());
            if denom > 100 {
                total.subtract(Reduced64::checked_new(1, denom - 100).unwrap());
            }
        }
        assert!(total.slots.len() < 1000, "{}", total.slots.len());
        let window: Total<i64> = (19_901..=20_000).map(|denom| Reduced64::checked_new(1, denom).unwrap()).sum();
        assert!(total.compare(&window).unwrap().is_eq());
    }
}
