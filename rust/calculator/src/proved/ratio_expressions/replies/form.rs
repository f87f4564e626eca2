// Erased from crates/ratio_expressions/src/replies/form.rt by rust/erase: not to be edited.
//! `Form`: as what a number is written.

/// As what a number is written. True and false are written alike in each form.
#[derive(Clone, Copy, PartialEq, Debug)]
pub enum Form {
    /// The fraction in lowest terms, and a whole number without `/1`: `17/12`, `5`.
    Fraction,
    /// A decimal with so many places, rounded half away from zero: `1.4167` with four.
    Decimal(u32),
    /// The whole part and the rest: `1 5/12`.
    Mixed,
    /// What a page shows of a number, with tabs between: the fraction, its decimal with so many places, and the mixed number.
    Fields(u32),
    /// The fraction, and its decimal of up to six places beside it: `17/12 ≈ 1.416667`, `1/4 = 0.25`, `5`.
    Both,
    /// The nearest float of 64 bits, with the fewest places that read back as it: `0.5833333333333334` for 7/12, and `-inf` if it is infinite.
    Float,
}
