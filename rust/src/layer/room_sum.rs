//! `RoomSum`: a sum of fractions over one common denominator of any length. It takes more memory by itself.
//!
//! The proved sums lie in digits that their caller gives. Here these digits are in a `Vec`.
use super::total::TooLong;
use crate::proved::ratio_decimal::rounding_rule::Rounding;
use crate::proved::ratio_slots::{digits_of_read, AddRefusal, JoinRefusal, Joined, NoSum, Slot, WideFraction, MOST_DIGITS};
use alloc::string::String;
use alloc::vec;
use alloc::vec::Vec;

/// A sum of fractions whose numbers have up to 128 bits.
#[derive(Clone)]
pub(super) struct RoomSum {
    sum: Joined,
    /// The room of the sum, and behind it the spare digits that an addition needs. There are none before the first addition.
    digits: Vec<u64>,
    /// Whether the common denominator has more than `MOST_DIGITS` digits, so that the room has no sum. It never gets shorter.
    too_long: bool,
}

/// The digits of the shortest common denominator.
pub(super) const FEWEST_DIGITS: usize = 4;

/// The most fractions in a sum. With 64 bits, a total's greatest weight comes first. With 32, the fractions of two sums and the slots of
/// two tables are together below 2^32.
const MOST_FRACTIONS: usize = if usize::BITS == 64 { usize::MAX } else { usize::MAX / 4 };

/// The digits of a room whose common denominator has so many digits.
#[inline]
pub(super) fn digits_of_room(digits: usize) -> usize {
    4 * digits + 6
}

/// The same, with the spare digits of an addition.
#[inline]
pub(super) fn digits_with_spare(digits: usize) -> usize {
    digits_of_room(digits) + 8 * digits + 6
}

/// The digits of a room whose sum becomes a decimal.
#[inline]
pub(super) fn digits_for_decimal(digits: usize, places: u32) -> usize {
    4 * digits + 2 * (places as usize / 19) + 12
}

/// The bytes of this decimal.
#[inline]
pub(super) fn bytes_for_decimal(digits: usize, places: u32) -> usize {
    (digits + places as usize / 19 + 5) * 20 + places as usize + 3
}

impl RoomSum {
    /// The sum of no fractions. It takes no memory.
    pub(super) const EMPTY: RoomSum = RoomSum { sum: Joined { done: 0, digits: 0 }, digits: Vec::new(), too_long: false };

    /// Whether no fraction ever went in or out.
    #[inline]
    pub(super) fn is_empty(&self) -> bool {
        self.digits.is_empty()
    }

    /// Whether so many fractions more may go in or out.
    #[inline]
    pub(super) fn takes(&self, more: usize) -> bool {
        more <= MOST_FRACTIONS - self.sum.done
    }

    /// How many fractions went in or out.
    #[inline]
    pub(super) fn fractions(&self) -> usize {
        self.sum.done
    }

    /// The sum of the slots.
    #[inline]
    pub(super) fn of_slots(slots: &[Slot]) -> RoomSum {
        let taken: Vec<Slot> = slots.iter().copied().filter(|slot| slot.denom() != 0).collect();
        let mut digits = vec![0; digits_of_read(&taken)];
        let begun = Joined::begin(&taken, &mut digits).expect("the room has enough digits");
        match begun.go_on(&taken, taken.len(), &mut digits) {
            Ok(sum) => {
                digits.resize(digits_with_spare(sum.digits), 0);
                RoomSum { sum, digits, too_long: false }
            }
            Err(JoinRefusal::TooLong) => RoomSum { sum: begun, digits, too_long: true },
            Err(JoinRefusal::NotJoined) => unreachable!("the read has begun in this room"),
        }
    }

    /// A sum of so many fractions with this value, or `None` if so many fractions have no such sum.
    #[cfg(feature = "serde")]
    pub(super) fn with_value(fractions: u64, is_negative: bool, numer: &[u64], denom: &[u64]) -> Option<RoomSum> {
        let done = usize::try_from(fractions).ok().filter(|done| RoomSum::EMPTY.takes(*done))?;
        let digits = denom.len().max(FEWEST_DIGITS);
        if numer.len() > digits + 3 {
            return None;
        }
        let mut room = vec![0; digits_of_room(digits)];
        let start = if is_negative { 2 * digits + 3 } else { 0 };
        room[start..start + numer.len()].copy_from_slice(numer);
        room[digits + 3..digits + 3 + denom.len()].copy_from_slice(denom);
        let mut moved = vec![0; digits_with_spare(digits)];
        // The proved call takes no room without a sum of so many fractions, nor one of too many digits.
        let sum = Joined { done, digits }.moved_to(&room, digits, &mut moved)?;
        Some(RoomSum { sum, digits: moved, too_long: false })
    }

    /// Adds a fraction, or takes it out.
    #[inline]
    pub(super) fn put(&mut self, fraction: WideFraction, out: bool) {
        let mut room = [0; 14];
        let sum = Joined::of(fraction.negative, fraction.numer, fraction.denom, &mut room).expect("the room has 14 digits");
        self.put_joined(sum, &room, out);
    }

    /// Adds each fraction of another sum, or takes each out.
    #[inline]
    pub(super) fn put_all(&mut self, other: &RoomSum, out: bool) {
        if other.too_long {
            *self = other.clone();
        } else if !out && other.sum.digits > self.sum.digits {
            // It takes less time to add the shorter sum to the longer one.
            let shorter = core::mem::replace(self, other.clone());
            self.put_all(&shorter, false);
        } else if !other.is_empty() {
            self.put_joined(other.sum, &other.digits, out);
        }
    }

    /// Takes one step of the proved sum, and more digits where it needs them.
    #[inline]
    fn put_joined(&mut self, other: Joined, other_room: &[u64], out: bool) {
        if self.is_empty() {
            self.grow(other.digits);
        }
        let step = if out { Joined::take_out } else { Joined::merge };
        while !self.too_long {
            let (room, spare) = self.digits.split_at_mut(digits_of_room(self.sum.digits));
            match step(self.sum, room, other, other_room, spare) {
                Ok(sum) => {
                    self.sum = sum;
                    return;
                }
                Err(AddRefusal::MoreDigits) => self.grow(other.digits),
                Err(AddRefusal::NoSum | AddRefusal::MoreRoom | AddRefusal::TooMany) => {
                    unreachable!("both rooms have sums of few fractions, and there are enough spare digits")
                }
            }
        }
    }

    /// Moves the sum into a room with at least twice the digits. A common denominator of so many digits more has room there.
    #[inline]
    pub(super) fn grow(&mut self, more: usize) {
        if self.sum.digits == MOST_DIGITS {
            self.too_long = true;
            return;
        }
        let digits = (self.sum.digits + more.max(self.sum.digits)).clamp(FEWEST_DIGITS, MOST_DIGITS);
        let mut longer = vec![0; digits_with_spare(digits)];
        let moved = if self.is_empty() { Joined::zero(digits, &mut longer) } else { self.sum.moved_to(&self.digits, digits, &mut longer) };
        self.sum = moved.expect("the room has enough digits");
        self.digits = longer;
    }

    /// The numbers of the sum, which is `(positive - negative)/common`, in this order: positive, common, negative.
    #[inline]
    pub(super) fn numbers(&self) -> Result<[&[u64]; 3], TooLong> {
        if self.too_long {
            return Err(TooLong(()));
        }
        let digits = self.sum.digits;
        let (positive, others) = self.digits.split_at(digits + 3);
        let (common, others) = others.split_at(digits);
        Ok([positive, common, &others[..digits + 3]])
    }

    /// Calls `read` with the room. It may have any digits afterwards.
    pub(super) fn read<R>(mut self, read: impl FnOnce(Joined, &mut [u64]) -> Result<R, NoSum>) -> Result<R, TooLong> {
        if self.too_long {
            return Err(TooLong(()));
        }
        match read(self.sum, &mut self.digits) {
            Ok(result) => Ok(result),
            Err(NoSum) => unreachable!("the room has a sum, and enough digits"),
        }
    }

    /// The sum as a decimal.
    #[inline]
    pub(super) fn decimal(mut self, places: u32, rule: Rounding) -> Result<String, TooLong> {
        let room = digits_for_decimal(self.sum.digits, places);
        if self.digits.len() < room {
            self.digits.resize(room, 0);
        }
        let mut text = vec![0; bytes_for_decimal(self.sum.digits, places)];
        let start = self.read(|sum, room| sum.put_decimal(places, rule, room, &mut text))?;
        Ok(text_from(text, start))
    }
}

/// The text that starts there.
#[inline]
pub(super) fn text_from(mut text: Vec<u8>, start: usize) -> String {
    text.drain(..start);
    String::from_utf8(text).expect("a decimal is ASCII")
}

#[cfg(test)]
impl RoomSum {
    /// A sum that is 1 over the greatest odd number of so many digits.
    pub(super) fn with_digits(digits: usize) -> RoomSum {
        let mut sum = RoomSum { digits: vec![0; digits_with_spare(digits)], ..RoomSum::EMPTY };
        sum.sum = Joined { done: 1, digits };
        sum.digits[0] = 1;
        sum.digits[digits + 3..2 * digits + 3].fill(u64::MAX);
        sum
    }
}

#[cfg(test)]
mod tests {
    use super::*;
    use crate::Total;

    const ODD: WideFraction = WideFraction { negative: false, numer: 1, denom: (1 << 127) - 1 };

    fn read(sum: &RoomSum) -> Result<Option<WideFraction>, TooLong> {
        sum.clone().read(Joined::wide_sum)
    }

    #[test]
    fn grows_where_it_must() {
        let mut sum = RoomSum::EMPTY;
        sum.put(ODD, false);
        assert_eq!((sum.sum.digits, read(&sum)), (FEWEST_DIGITS, Ok(Some(ODD))));
        for i in 1..40 {
            sum.put(WideFraction { denom: (1 << 64) + i, ..ODD }, i % 2 == 1);
        }
        assert!((32..=128).contains(&sum.sum.digits) && sum.fractions() == 40, "{} digits", sum.sum.digits);
        for i in 1..40 {
            sum.put(WideFraction { denom: (1 << 64) + i, ..ODD }, i % 2 == 0);
        }
        assert_eq!(read(&sum), Ok(Some(ODD)));
        sum.grow(MOST_DIGITS);
        assert_eq!((sum.sum.digits, read(&sum)), (MOST_DIGITS, Ok(Some(ODD))));
    }

    /// The sum has all the digits that there may be. What has a common divisor with its denominator still goes in.
    #[test]
    fn never_gets_shorter_again() {
        let mut sum = RoomSum::with_digits(MOST_DIGITS);
        sum.put(WideFraction { denom: u128::MAX, ..ODD }, false);
        sum.put(WideFraction { denom: u128::MAX, ..ODD }, true);
        assert_eq!((sum.too_long, sum.clone().read(Joined::sign)), (false, Ok(core::cmp::Ordering::Greater)));
        for out in [false, true] {
            sum.put(ODD, out);
            assert!(sum.too_long && sum.clone().read(Joined::sign).is_err());
        }
        let mut other = RoomSum::EMPTY;
        other.put_all(&sum, false);
        assert!(other.too_long && !other.is_empty());
        other.put_all(&sum, true);
        assert!(other.too_long);
    }

    /// A total keeps that it is too long, in each order and through merges, and each read says so.
    #[test]
    fn a_total_stays_too_long() {
        let half: crate::Reduced<i128> = crate::Reduced::checked_new(1, 2).unwrap();
        let odd = crate::Reduced::checked_new(1, i128::MAX).unwrap();
        let mut long = Total::<i128>::new();
        long.wide = RoomSum::with_digits(MOST_DIGITS);
        assert!(long.sign().is_ok());
        let mut first = long.clone();
        first.add(odd);
        first.subtract(odd);
        let mut merged = long;
        merged.merge(&[odd, half].iter().sum());
        let mut taken: Total<i128> = [half].iter().sum();
        taken.take_out(&merged);
        taken.merge(&merged);
        for total in [first, merged, taken] {
            let reads = [total.sum().err(), total.mean().err(), total.to_f64().err(), total.decimal(2, Rounding::Up).err(), total.sign().err()];
            assert_eq!(reads, [Some(TooLong(())); 5]);
            let orders = [total.compare(&Total::new()).err(), Total::new().compare(&total).err(), total.compare_with(half).err()];
            assert_eq!(orders, [Some(TooLong(())); 3]);
            assert_eq!((total.to_integer(Rounding::Up).err(), total.round_to(7, Rounding::Up).err()), (Some(TooLong(())), Some(TooLong(()))));
            #[cfg(feature = "serde")]
            assert_eq!(std::format!("{}", serde_json::to_string(&total).unwrap_err()), "the common denominator is too long");
            #[cfg(panic = "unwind")]
            assert!(std::panic::catch_unwind(|| total == total.clone()).is_err());
        }
    }
}
