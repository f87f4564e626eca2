// Erased from crates/ratio_slots/src/slots.rt by rust/erase: not to be edited.
//! The struct `Slot`, which holds a denominator and the sum of the numerators over it, and tables of slots: emptied, searched for a
//! denominator, and counted.

/// The fraction `numer/denom`. The slot is empty if `denom` is 0. It has the layout of a C struct: the denominator, and the
/// lower and the upper half of the numerator.
#[repr(C)]
#[derive(Clone, Copy)]
pub struct Slot {
    denom: u64,
    low: u64,
    high: i64,
}

impl Slot {
    /// A slot without a fraction.
    pub const EMPTY: Slot = Slot {
        denom: 0,
        low: 0,
        high: 0,
    };

    /// The slot of the fraction `numer/denom`.
    #[inline(always)]
    pub fn new(denom: u64, numer: i128) -> Slot {
        let high = numer.div_euclid(1 << 64);
        Slot {
            denom,
            low: (numer - high * (1 << 64)) as u64,
            high: high as i64,
        }
    }

    /// The denominator.
    #[inline(always)]
    pub fn denom(self) -> u64 {
        self.denom
    }

    /// The sum of the numerators over it.
    #[inline(always)]
    pub fn numer(self) -> i128 {
        self.high as i128 * (1 << 64) + self.low as i128
    }
}

/// The denominator of the slot at this index.
///
/// # Conditions
///
/// The proof requires of the caller:
///
/// - `i < length slots.now`
#[inline(always)]
pub(crate) fn denom_at(slots: &[Slot], i: usize) -> u64 {
    slots[i].denom()
}

/// The numerator of the slot at this index.
///
/// # Conditions
///
/// The proof requires of the caller:
///
/// - `i < length slots.now`
#[inline(always)]
pub(crate) fn numer_at(slots: &[Slot], i: usize) -> i128 {
    slots[i].numer()
}

/// Adds a numerator over this denominator to the slot at this index.
///
/// # Conditions
///
/// The proof requires of the caller:
///
/// - `within`: `i < length slots.old`
/// - `held`: `Has128Bits ((slot_at slots.old i).numer +ℤ numer)`
#[inline(always)]
pub(crate) fn grow_at(slots: &mut [Slot], i: usize, denom: u64, numer: i128) {
    let sum = numer_at(slots, i) + numer;
    slots[i] = Slot::new(denom, sum);
}

/// Makes each slot empty.
#[inline]
pub fn clear(slots: &mut [Slot]) {
    for slot in slots.iter_mut() {
        *slot = Slot::EMPTY;
    }
}

/// An odd number near 2^64 divided by the golden ratio: its multiples are spread evenly.
pub const SPREAD: u64 = 0x9e37_79b9_7f4a_7c15;

/// An even number below 2^30. With it, the denominators of common use seldom collide in short tables and in tables of 2^n slots.
pub const STRETCH: u64 = 0x08fe_0b3a;

/// The place of a denominator: the slot that holds it, or else the empty slot where it goes. If all slots hold other
/// denominators, this is `None`.
#[inline]
pub fn find(slots: &[Slot], denom: u64) -> Option<usize> {
    let start = home(denom, slots.len());
    if start < slots.len() && is_open(slots, start, denom) {
        return Some(start);
    }
    for i in start..slots.len() {
        if is_open(slots, i, denom) {
            return Some(i);
        }
    }
    for i in 0..start {
        if is_open(slots, i, denom) {
            return Some(i);
        }
    }
    None
}

/// The numerator over a denominator; 0 if no slot holds it.
///
/// # Conditions
///
/// The proof requires of the caller:
///
/// - `table`: `IsTable slots.now`
/// - `denom`: `denom ≢ 0`
#[inline]
pub fn numerator_in(slots: &[Slot], denom: u64) -> i128 {
    match find(slots, denom) {
        Some(place) => numer_at(slots, place),
        None => 0,
    }
}

/// Whether the slot at this index is empty or holds this denominator.
///
/// # Conditions
///
/// The proof requires of the caller:
///
/// - `i < length slots.now`
#[inline(always)]
fn is_open(slots: &[Slot], i: usize, denom: u64) -> bool {
    let held = denom_at(slots, i);
    held == denom || held == 0
}

/// Where the search for a denominator begins. It is a pure function of both numbers, and at most the length.
///
/// Each length stretches the denominators by another factor, and then they are rounded down. So denominators with one home in tables
/// of one length have many homes in tables of most other lengths. The numbers from 1 on stay apart, and `SPREAD` spreads them evenly.
#[inline(always)]
fn home(denom: u64, length: usize) -> usize {
    let stretched = denom.wrapping_mul(factor(length as u64)) / (1 << 32);
    let spread = stretched.wrapping_mul(SPREAD);
    ((spread as u128 * length as u128) / (1 << 64)) as usize
}

/// What denominators are stretched by, in parts of 2^32.
#[inline(always)]
fn factor(length: u64) -> u64 {
    (1 << 32) + 1 + length.wrapping_mul(length).wrapping_mul(STRETCH) % (1 << 30)
}

// How many slots are taken.
#[inline]
pub(crate) fn count_taken(slots: &[Slot]) -> usize {
    let mut count = 0;
    for i in 0..slots.len() {
        if denom_at(slots, i) == 0 {
            continue;
        }
        count += 1;
    }
    count
}

/// How many slots are empty.
#[inline]
pub fn count_free(slots: &[Slot]) -> usize {
    let mut count = 0;
    for i in 0..slots.len() {
        count += free_here(&slots[i]);
    }
    count
}

/// 1 if the slot is empty; elsewhere 0.
#[inline]
fn free_here(slot: &Slot) -> usize {
    if slot.denom() == 0 { 1 } else { 0 }
}

/// How many slots of the other table hold a denominator that the first one does not.
///
/// # Conditions
///
/// The proof requires of the caller:
///
/// - `IsTable slots.now`
#[inline]
pub(crate) fn count_new(slots: &[Slot], other: &[Slot]) -> usize {
    let mut count = 0;
    for i in 0..other.len() {
        count += new_here(slots, &other[i]);
    }
    count
}

/// 1 if the slot holds a denominator that the table does not; elsewhere 0.
///
/// # Conditions
///
/// The proof requires of the caller:
///
/// - `IsTable slots.now`
#[inline]
fn new_here(slots: &[Slot], slot: &Slot) -> usize {
    let denom = slot.denom();
    if denom == 0 {
        return 0;
    }
    match find(slots, denom) {
        Some(place) => { if denom_at(slots, place) == 0 { 1 } else { 0 } }
        None => 1,
    }
}
