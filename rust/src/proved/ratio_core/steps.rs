// Erased from crates/ratio_core/src/steps.rt by rust/erase: not to be edited.
//! `Steps`: how many steps each side of a comparison took, a count that only contracts see; and `Side`, the side that a step counts for.

/// The side of a comparison, whose fraction a step serves.
#[derive(Clone, Copy)]
pub enum Side {
    Left,
    Right,
}

/// How many steps each side of a comparison has taken. A list of codes counts on the left side. A step finds one quotient,
/// with at most one division. Both counts are unbounded: only clauses and proofs see them, and they take no memory.
pub struct Steps {}

const _: () = assert!(core::mem::size_of::<Steps>() == 0);

impl Steps {
    /// No step yet.
    #[inline]
    pub fn new() -> Steps {
        Steps {}
    }

    /// One more step of the left side.
    #[inline]
    pub(crate) fn tick_left(&mut self) {}

    /// One more step of the right side.
    #[inline]
    pub(crate) fn tick_right(&mut self) {}
}
