// Erased from crates/ratio_decimal/src/cuts.rt by rust/erase: not to be edited.
//! Public names of the functions that cut a text into signs, digits and the bytes between them: decimals, fractions, mixed numbers and
//! percentages.
pub use crate::proved::ratio_decimal::reading::cut::{DecimalParts, after_sign, decimal_parts};
pub use crate::proved::ratio_decimal::typed::parts::{
    MixedParts, QuotientParts, are_digits, before_percent, mixed_parts, quotient_parts,
};
