// Erased from crates/ratio_expressions/src/assignment.rt by rust/erase: not to be edited.
//! The name that a line gives its value, and the expression of this value.

use crate::proved::ratio_expressions::step::Step;
use crate::proved::ratio_expressions::token::{Operator, Span};

/// The name that a line with these steps gives its value, if it gives one, and the steps of the expression of this value.
#[inline]
pub(crate) fn assignment(steps: &[Step]) -> (Option<Span>, &[Step]) {
    match steps {
        [
            Step::Name(name),
            expression @ ..,
            Step::Apply(Operator::Equal, _),
        ] if is_whole(expression) => (Some(*name), expression),
        _ => (None, steps),
    }
}

// Whether the steps make one tree. A call takes its arguments with the commas between them as one.
#[inline]
fn is_whole(steps: &[Step]) -> bool {
    let mut trees: usize = 0;
    for step in steps {
        let taken = operands_of(*step);
        if trees < taken {
            return false;
        }
        trees = trees - taken + 1;
    }
    trees == 1
}

// How many trees a step takes.
#[inline]
fn operands_of(step: Step) -> usize {
    match step {
        Step::Number(_) | Step::Name(_) => 0,
        Step::Sign(_, _) | Step::Group(_, _) | Step::Call(_) => 1,
        Step::Apply(_, _) | Step::Comma(_) => 2,
    }
}
