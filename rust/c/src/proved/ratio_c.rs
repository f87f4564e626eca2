// Erased from crates/ratio_c/src/lib.rt by rust/erase: not to be edited.
//! The calls for C and for other languages, over slices of fractions, which `include/ratio.h` declares. Each answer has a code, and the
//! numbers that C gives have no condition. That the pointers are right is the caller's part. Most calls are in `numbers32`,
//! `numbers64` and `numbers128`.
pub mod arithmetic;
pub mod code;
pub mod compare;
pub mod crossing;
pub mod decimal;
pub mod divisors;
pub mod each;
pub mod floats;
pub mod hash;
pub mod hash_mod61;
pub mod joined_reads;

pub mod many;
pub mod near;
pub mod numbers128;
pub mod numbers32;
pub mod numbers64;
pub mod one_fraction;
pub mod printing;
pub mod reading;
pub mod rounded;
pub mod scaled;
pub mod sorting;
pub mod splits;
pub mod strided;
pub mod total_bounded;
pub mod total_changes;
pub mod total_floats;
pub mod total_joining;
pub mod total_orders;
pub mod total_reads;
pub mod totals;
pub mod wide;
