//! The rows of crates/PROGRAM/rows by plain Rust: each call is made anew, and its answer compared with the row's.
use crate::memory::Global;
use crate::proved::rows::row::Row;
use std::string::{String, ToString};
use std::vec::Vec;
use subjects::Subjects;

/// What is wrong with a row, if anything is. The numbers of `isize` and `usize` are for 64 bits, and so are lengths such as 2^64-1: elsewhere, a
/// row with one cannot be read.
fn fault(line: &str) -> Option<String> {
    let is_narrow = cfg!(not(target_pointer_width = "64"));
    if is_narrow && line.split(' ').any(|word| word == "isize" || word == "usize") {
        return None;
    }
    let got = Row { alloc: Global, line, calls: Subjects }.to_string();
    let is_bad = got.ends_with(" = bad row");
    (if is_bad { !is_narrow } else { got != line }).then(|| std::format!("the row:     {line}\nthe program: {got}\n"))
}

#[test]
fn each_row_has_the_answer_of_its_call() {
    let rows = include_str!("PROGRAM/all.rows");
    let faults: Vec<String> = rows.lines().filter_map(fault).collect();
    assert!(rows.lines().count() > 0, "there is no row");
    assert!(faults.is_empty(), "{} rows of {}:\n{}", faults.len(), rows.lines().count(), faults.concat());
}
