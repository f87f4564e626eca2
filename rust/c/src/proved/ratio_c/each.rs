// Erased from crates/ratio_c/src/each.rt by rust/erase: not to be edited.
//! The trait `Call`, and `each`: one call for each item of a slice.

/// A call that gives an answer for one item.
pub trait Call<A, B> {
    /// The answer for one item.
    fn answer(&self, asked: &A) -> B;
}

/// A call returns this if it wrote its answers.
pub const DONE: u32 = 0;

/// A call returns this if it wrote nothing: the slices have unlike
/// lengths, or there is too little room for texts.
pub const BAD_LENGTH: u32 = 1;

/// Writes the answer for each item, if there are as many answers as items.
#[inline(always)]
pub fn each<C: Call<A, B>, A, B>(call: &C, asked: &[A], answers: &mut [B]) -> u32 {
    if asked.len() != answers.len() {
        return BAD_LENGTH;
    }
    for i in 0..asked.len() {
        answers[i] = call.answer(&asked[i]);
    }
    DONE
}
