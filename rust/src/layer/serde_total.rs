//! A `Total` in serde's formats: a list of four.
use super::big_fraction::BigFraction;
use super::big_fraction_texts::BigTextRefusal;
use super::integer::Integer;
use super::reduced::Reduced;
use super::room_sum::RoomSum;
use super::serde_forms::{read_text, Held, Text};
use super::total::Total;
use crate::proved::ratio_slots::{Slot, Tally, MOST_DIGITS, MOST_WEIGHT};
use alloc::vec::Vec;
use core::fmt;
use num_traits::Signed;
use serde::de::{Error, SeqAccess, Visitor};
use serde::ser::Error as _;
use serde::{Deserialize, Deserializer, Serialize, Serializer};

/// A list of four: the count, how many fractions went in or out, the sums over the denominators in slots, as texts of their lowest terms, and
/// how many fractions no slot takes, with their sum. If there was none of these, it is null: 1/2 twice and 1/3 are `[3,3,["1","1/3"],null]`.
/// To write a total whose `big_sum` is `TooLong` is an error.
///
/// ```
/// use num_rational::{ratio, Total};
///
/// let total: Total<i64> = [ratio!(1/2), ratio!(1/2), ratio!(1/3)].iter().sum();
/// let text = serde_json::to_string(&total).unwrap();
/// let back: Total<i64> = serde_json::from_str(&text).unwrap();
/// assert_eq!((back.sum(), back.count()), (Ok(Some(ratio!(4/3))), 3));
/// ```
impl<T: Integer> Serialize for Total<T> {
    fn serialize<S: Serializer>(&self, format: S) -> Result<S::Ok, S::Error> {
        let wide = if self.wide.is_empty() {
            None
        } else {
            let mut others = Total::<T>::new();
            others.wide = self.wide.clone();
            Some((self.wide.fractions() as u64, others.big_sum().map_err(S::Error::custom)?))
        };
        let mut slots: Vec<Reduced<i128>> = self.slots.iter().filter(|slot| slot.numer() != 0).filter_map(in_lowest_terms).collect();
        // The places in a long table are random.
        slots.sort_unstable_by_key(|fraction| (*fraction.denom(), *fraction.numer()));
        let texts: Vec<Held<Text, &Reduced<i128>>> = slots.iter().map(Held::of).collect();
        let wide = wide.as_ref().map(|(count, sum)| (count, Held::<Text, _>::of(sum)));
        (self.tally.count, self.tally.weight, texts.as_slice(), wide).serialize(format)
    }
}

fn in_lowest_terms(slot: &Slot) -> Option<Reduced<i128>> {
    Reduced::checked_new(slot.numer(), slot.denom().into())
}

/// It is an error if no total may have these fractions: a numerator is greater than so many fractions can make it, or a denominator in a
/// slot is 2^64 or more.
impl<'de, T: Integer> Deserialize<'de> for Total<T> {
    fn deserialize<D: Deserializer<'de>>(format: D) -> Result<Total<T>, D::Error> {
        let (count, weight, slots, wide) = <(i64, u64, Slots, Option<(u64, Wide)>)>::deserialize(format)?;
        let wide = match wide {
            Some((fractions, _)) if fractions > weight => None,
            Some((fractions, Wide(sum))) => sum.with_digits(|numer, denom| RoomSum::with_value(fractions, sum.is_negative(), numer, denom)),
            None => Some(RoomSum::EMPTY),
        };
        let total = wide.and_then(|wide| Total::of_parts(Tally { weight, count }, &slots.0, wide));
        total.ok_or_else(|| D::Error::custom("no total has these fractions after so many additions"))
    }
}

/// The fractions that go into slots.
struct Slots(Vec<Slot>);

impl<'de> Deserialize<'de> for Slots {
    fn deserialize<D: Deserializer<'de>>(format: D) -> Result<Slots, D::Error> {
        format.deserialize_seq(Reader)
    }
}

struct Reader;

impl<'de> Visitor<'de> for Reader {
    type Value = Slots;

    fn expecting(&self, f: &mut fmt::Formatter<'_>) -> fmt::Result {
        f.write_str("a list of fractions as texts")
    }

    fn visit_seq<A: SeqAccess<'de>>(self, mut sequence: A) -> Result<Slots, A::Error> {
        let mut slots = Vec::new();
        while let Some(Held { fraction, .. }) = sequence.next_element::<Held<Text, Reduced<i128>>>()? {
            let denom = u64::try_from(*fraction.denom()).map_err(|_| A::Error::custom("a denominator in a slot is 2^64 or more"))?;
            slots.push(Slot::new(denom, *fraction.numer()));
        }
        Ok(Slots(slots))
    }
}

/// The sum of the fractions that no slot takes. A text of more bits than such a sum has is not computed.
struct Wide(BigFraction);

const MOST_BITS: u64 = 64 * (MOST_DIGITS as u64 + 3);

impl<'de> Deserialize<'de> for Wide {
    fn deserialize<D: Deserializer<'de>>(format: D) -> Result<Wide, D::Error> {
        let read = |text: &str| -> Result<BigFraction, BigTextRefusal> { BigFraction::from_text_within(text, MOST_BITS) };
        read_text(format, "a fraction as a text", read).map(Wide)
    }
}

impl<T> Total<T> {
    /// The total with these fractions in slots and this sum of others, or `None` if so many additions cannot make them.
    fn of_parts(tally: Tally, slots: &[Slot], wide: RoomSum) -> Option<Total<T>> {
        if tally.weight > MOST_WEIGHT || tally.count.unsigned_abs() > tally.weight {
            return None;
        }
        let mut total = Total::new();
        total.tally = tally;
        total.wide = wide;
        if slots.is_empty() {
            return Some(total);
        }
        total.put_loose(slots)?;
        total.count_empty();
        let most = u128::from(tally.weight) * u128::from(u64::MAX);
        let is_kept = |slot: &Slot| slot.numer().unsigned_abs() <= most;
        if total.slots.iter().all(is_kept) { Some(total) } else { None }
    }
}
