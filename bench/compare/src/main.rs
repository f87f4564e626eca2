//! Runs each call of the proved library and of the plain Rust crate, and the same call of num-rational, in
//! one process. It compares all results, and prints a row of times for each kind of input. It ends with
//! status 1 if results differ.

#[macro_use]
mod slices;

mod answer;
mod calls;
mod erased;
mod goals;
mod inputs;
mod kinds;
mod mixing;
mod proved;
mod random;
mod row;
mod theirs;
mod timing;

use bakhsney::proved::ratio_integer::Primitive;
use calls::Bench;
use proved::{Crossing, Exports};

/// Prints the rows of one type, and returns how many results differ.
fn rows<C: Crossing>(exports: &Exports<C>, filter: &str) -> usize
where
    C::Number: bakhsney::integer::Integer + Primitive,
{
    let mut bench = Bench::new(exports, filter);
    bench.run();
    bench.differing()
}

fn main() {
    let filter = std::env::args().nth(1).unwrap_or_default();
    row::head();
    let differing = rows(&proved::EXPORTS_32, &filter) + rows(&proved::EXPORTS_64, &filter) + rows(&proved::EXPORTS_128, &filter);
    if filter.is_empty() {
        eprintln!("Erased and proved were also compared on up to {} more pairs of each type. Differences, with those from the crate: {differing}.", calls::COMPARED);
    }
    std::process::exit(i32::from(differing > 0));
}
