// Erased from crates/num_rational/src/many_products.rt by rust/erase: not to be edited.
//! The two ways of a product or quotient of many fractions in lowest terms: step by step, and cancelled first.

use crate::proved::num_rational::operand::ReducedOperand;
use crate::proved::num_rational::ratio::Ratio;
use crate::proved::num_rational::reduced::Reduced;
use crate::proved::ratio_core::products::many_products;
use crate::proved::ratio_integer::{Integer, lowest_terms};

// Whether there is room for two numbers an item.
#[inline]
pub(crate) fn has_room(above: usize, below: usize, room: usize) -> bool {
    let half = room / 2;
    above <= half && below <= half - above
}

// The quotient, if the lowest terms of each step fit. Then nothing has to be cancelled first. Else whether the step that does not fit is the
// last one. Then the quotient does not fit.
#[inline]
pub(crate) fn step_by_step<
    T: Copy + Integer,
    O: ReducedOperand<T> + Copy,
    P: ReducedOperand<T> + Copy,
>(above: &[O], below: &[P]) -> Result<Reduced<T>, bool> {
    let mut numer = T::ONE;
    let mut denom = T::ONE;
    let mut lowest = true;
    for (i, x) in above.iter().enumerate() {
        match times(numer, denom, lowest, &(*x).reduced()) {
            Some((n, d, reduced)) => {
                numer = n;
                denom = d;
                lowest = reduced;
            }
            None => return Err(is_last(i, above.len(), below.len())),
        }
    }
    let mut total = in_lowest_terms(numer, denom, lowest);
    for (i, x) in below.iter().enumerate() {
        match total.checked_div((*x).reduced()) {
            Some(quotient) => total = quotient,
            None => return Err(is_last(i, below.len(), 0)),
        }
    }
    Ok(total)
}

// The product of `n/d` and `x`, and whether it is in lowest terms. It is reduced only where its numbers do not fit as they are, or are equal:
// the gcd of these takes no steps. `None` if its lowest terms do not fit. If `lowest` is true, `n/d` is in lowest terms.
#[inline]
fn times<T: Copy + Integer>(n: T, d: T, lowest: bool, x: &Reduced<T>) -> Option<(T, T, bool)> {
    let (p, q) = (*x).into_raw();
    if n.is_one() && d.is_one() {
        return Some((p, q, true));
    }
    if let Some(numer) = n.try_times(p) {
        if let Some(denom) = d.try_times(q) {
            if numer != denom {
                return Some((numer, denom, false));
            }
        }
    }
    let product = in_lowest_terms(n, d, lowest).checked_mul(x)?;
    let (numer, denom) = product.into_raw();
    Some((numer, denom, true))
}

// `n/d` in lowest terms. If `lowest` is true, it is in lowest terms already.
#[inline]
fn in_lowest_terms<T: Copy + Integer>(n: T, d: T, lowest: bool) -> Reduced<T> {
    if lowest {
        return Reduced {
            ratio: Ratio::new_raw(n, d),
        };
    }
    let (numer, denom) = lowest_terms(n, d);
    Reduced {
        ratio: Ratio::new_raw(numer, denom),
    }
}

// Whether no item is left, neither of a list after its i-th one nor of `others`.
#[inline]
fn is_last(i: usize, items: usize, others: usize) -> bool {
    i + 1 == items && others == 0
}

// The quotient, with each number above cancelled against each number below before anything is multiplied.
/// # Conditions
///
/// The proof requires of the caller:
///
/// - `2 * (length above.now + length below.now) ≤ length room.old`
#[inline]
pub(crate) fn cancelled_first<
    T: Copy + Integer,
    O: ReducedOperand<T> + Copy,
    P: ReducedOperand<T> + Copy,
>(above: &[O], below: &[P], room: &mut [T]) -> Option<Reduced<T>> {
    let count = above.len() + below.len();
    let (upper, others) = room.split_at_mut(count);
    let (lower, _) = others.split_at_mut(count);
    let (numers, turned_denoms) = upper.split_at_mut(above.len());
    let (denoms, turned_numers) = lower.split_at_mut(above.len());
    put_numbers(above, numers, denoms);
    put_numbers(below, turned_numers, turned_denoms);
    match many_products::checked_quotient_of_products(upper, lower) {
        Some((numer, denom)) => Some(Reduced {
            ratio: Ratio::new_raw(numer, denom),
        }),
        None => None,
    }
}

// Writes the numerators and the denominators of the items.
#[inline]
fn put_numbers<T: Copy + Integer, O: ReducedOperand<T> + Copy>(
    items: &[O],
    numers: &mut [T],
    denoms: &mut [T],
) {
    for (i, x) in items.iter().enumerate() {
        let (numer, denom) = (*x).reduced().into_raw();
        numers[i] = numer;
        denoms[i] = denom;
    }
}
