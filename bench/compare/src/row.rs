//! A row of docs/benchmarks.tsv, without its last column. bench/peers adds that: the commit.

use crate::goals::{goal, MOST};
use crate::timing::{times, Times};

/// The erased crate's part of the crate's time may be above the proved library's part by at most this.
const MOST_ABOVE: f64 = 0.05;

/// The names of the columns, here and in checks/benchmarks.
const COLUMNS: &str = "fraction\ttype\tcall\tinput\tproved_ns\terased_ns\tratio_ns\tcrate_ns\tproved_of_crate\terased_of_crate\tof_ratio\tgoal\tverdict\tboth\tours\tneither";

/// How often both have a result, only ours has one, and neither has one.
#[derive(Default)]
pub struct Counts {
    pub both: usize,
    pub ours: usize,
    pub neither: usize,
}

/// The time of a call by the proved library, if that exports it, and by the erased crate. Each is timed in turn with the crate.
pub struct Row {
    proved: Option<Times>,
    erased: Times,
}

pub fn head() {
    println!("{COLUMNS}");
}

impl Row {
    pub fn timed(len: usize, proved: Option<&mut dyn FnMut()>, erased: &mut dyn FnMut(), theirs: &mut dyn FnMut()) -> Row {
        Row { proved: proved.map(|proved| times(len, proved, theirs)), erased: times(len, erased, theirs) }
    }

    /// The verdict on the goal.
    fn said(&self, goal: f64, counts: &Counts) -> &'static str {
        let ratio = self.proved.as_ref().map_or(self.erased.ratio, |times| times.ratio);
        if ratio > goal && counts.both + counts.ours == 0 {
            "no answers"
        } else if ratio > MOST {
            "above 1.2"
        } else if ratio > goal {
            "missed"
        } else if self.erased.ratio > ratio + MOST_ABOVE {
            "erased above"
        } else {
            "met"
        }
    }

    pub fn print(&self, bits: u32, call: &str, kind: &str, counts: Counts) {
        let goal = goal(call, kind);
        let (nanoseconds, ratio) = match &self.proved {
            Some(times) => (format!("{:.1}", times.ours), format!("{:.2}", times.ratio)),
            None => (String::new(), String::new()),
        };
        println!(
            "Ratio\ti{bits}\t{call}\t{kind}\t{nanoseconds}\t{:.1}\t\t{:.1}\t{ratio}\t{:.2}\t\t{goal:.1}\t{}\t{}\t{}\t{}",
            self.erased.ours,
            self.erased.theirs,
            self.erased.ratio,
            self.said(goal, &counts),
            counts.both,
            counts.ours,
            counts.neither
        );
    }
}
