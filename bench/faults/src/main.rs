//! Finds, for each call of the Rust crate num-rational, the simplest operands over `i8` for which it is wrong: it panics though
//! there is a result, or it returns another one. It prints a line for each: the call, the four numbers, the operands as Rust
//! writes them, what the crate did, and the exact result. With arguments NAME=A,B,C,D it does not search, but shows what the
//! crate does at these operands. So the release build shows what happens where the debug build panics.

mod calls;
mod exact;
mod operands;

use calls::{Call, Fault, CALLS};
use operands::{pairs, Operands};

fn main() {
    std::panic::set_hook(Box::new(|_| {}));
    let all = pairs();
    for call in CALLS {
        match simplest(call, &all) {
            Some((operands, theirs, exact)) => {
                let ((a, b), (c, d)) = operands;
                println!(
                    "{}\t{a},{b},{c},{d}\t{}\t{theirs}\t{exact}",
                    call.name,
                    (call.show)(operands)
                );
            }
            None => println!("{}\t\tnone was found\t\t", call.name),
        }
    }
}

/// The operands that an argument gives for this call, or else the simplest ones at which the crate has this fault, with its
/// result and the exact one.
fn simplest(call: &Call, all: &[Operands]) -> Option<(Operands, String, String)> {
    let given = std::env::args()
        .skip(1)
        .find_map(|text| operands::read(&text, call.name));
    let candidates = given.as_ref().map_or(all, std::slice::from_ref);
    candidates.iter().find_map(|&operands| {
        let exact = (call.exact)(operands)?;
        let theirs = calls::caught(|| (call.theirs)(operands));
        let at_fault = given.is_some()
            || match call.fault {
                Fault::Panics => theirs == "panics",
                Fault::Answers => theirs != "panics" && theirs != exact,
            };
        at_fault.then_some((operands, theirs, exact))
    })
}
