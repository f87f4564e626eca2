//! Times of two ways to the same results. They are taken in turn, so that what else the machine does slows
//! both alike.

use std::time::Instant;

/// How often each way is timed.
const ROUNDS: usize = 101;

/// The least time of one timing, in nanoseconds.
const SLICE: f64 = 100_000.0;

/// The nanoseconds of a call of ours and of theirs, and the median of ours over theirs.
pub struct Times {
    pub ours: f64,
    pub theirs: f64,
    pub ratio: f64,
}

fn nanoseconds(way: &mut dyn FnMut(), turns: usize) -> f64 {
    let start = Instant::now();
    for _ in 0..turns {
        way();
    }
    start.elapsed().as_nanos() as f64 / turns as f64
}

fn turns(way: &mut dyn FnMut()) -> usize {
    way();
    let once = nanoseconds(way, 1).max(1.0);
    ((SLICE / once).ceil() as usize).max(1)
}

fn median(mut values: Vec<f64>) -> f64 {
    values.sort_by(|a, b| a.partial_cmp(b).expect("times are numbers"));
    values[values.len() / 2]
}

/// Times both ways, each of which makes `calls` calls.
pub fn times(calls: usize, ours: &mut dyn FnMut(), theirs: &mut dyn FnMut()) -> Times {
    let (our_turns, their_turns) = (turns(ours), turns(theirs));
    let (mut of_ours, mut of_theirs, mut ratios) = (Vec::new(), Vec::new(), Vec::new());
    for round in 0..ROUNDS {
        let (a, b);
        if round % 2 == 0 {
            a = nanoseconds(ours, our_turns);
            b = nanoseconds(theirs, their_turns);
        } else {
            b = nanoseconds(theirs, their_turns);
            a = nanoseconds(ours, our_turns);
        }
        of_ours.push(a / calls as f64);
        of_theirs.push(b / calls as f64);
        ratios.push(a / b);
    }
    Times {
        ours: median(of_ours),
        theirs: median(of_theirs),
        ratio: median(ratios),
    }
}
