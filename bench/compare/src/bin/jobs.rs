//! The jobs `lines` and `ordering` of crates/bench_jobs over num-rational, with the same words and the same digests.
//!
//! `bench/peers --jobs` copies their sources to src/jobs, without contracts. They import what src/stand_ins.rs has.

#[path = "../jobs/digest.rs"]
#[allow(dead_code)]
mod digest;
#[path = "../jobs/lines.rs"]
mod lines;
#[path = "../jobs/made.rs"]
#[allow(dead_code)]
mod made;
#[path = "../jobs/ordering.rs"]
mod ordering;
#[allow(dead_code)]
mod plain_calculator;
#[path = "../stand_ins.rs"]
mod stand_ins;

use made::Made;
use stand_ins::Global;

fn main() {
    let words: Vec<String> = std::env::args().skip(1).collect();
    let mut made = Made::new(words[1].parse().expect("the seed"));
    let count = words[2].parse().expect("how often the job is done");
    let digest = match words[0].as_str() {
        "lines" => lines::run(Global, &mut made, count, 20_000),
        "ordering" => ordering::run(Global, &mut made, count, 20_000),
        job => panic!("there is no job {job} over num-rational"),
    };
    println!("{} {:016x}", words[0], digest.expect("memory"));
}
