// Erased from crates/ratio_expressions/src/slashes.rt by rust/erase: not to be edited.
//! Which chains of slashes are taken whole, and how a text shows that.

use bakhsney::memory::{AllocError, Global, Vec};
use crate::proved::ratio_expressions::expression::tree_of;
use crate::proved::ratio_expressions::refusal::ValueError;
use crate::proved::ratio_expressions::step::Step;
use crate::proved::ratio_expressions::token::{Operator, Spacing, Span};

/// How long a text may be that is shown, in bytes.
pub const LONGEST_SHOWN: usize = 1000;

/// Where a part of an expression is, and whether slashes without spaces make it.
#[derive(Clone, Copy, PartialEq, Debug)]
pub(crate) struct Part {
    pub place: Span,
    pub slashed: bool,
}

/// The text with parentheses around each chain of slashes that is taken whole, right of a `/` or a `%` with a space on both sides:
/// `1/2 / 1/3` is read as `1/2 / (1/3)`. It is `None` if there is no such chain, and for a text of more than `LONGEST_SHOWN` bytes. An error means
/// that an allocation failed.
#[inline]
pub fn read_as(alloc: Global, text: &[u8]) -> Result<Option<Vec<u8>>, AllocError> {
    match tree_of(alloc, text) {
        Ok(steps) => shown_by(alloc, text, &steps),
        Err(ValueError::Refused(_refusal)) => Ok(None),
        Err(ValueError::Memory) => Err(AllocError),
    }
}

// The text with these steps as it is shown.
#[inline]
fn shown_by(alloc: Global, text: &[u8], steps: &[Step]) -> Result<Option<Vec<u8>>, AllocError> {
    let chains = chains_of(alloc, steps)?;
    shown(alloc, text, &chains)
}

// The chains that are taken whole.
#[inline]
fn chains_of(alloc: Global, steps: &[Step]) -> Result<Vec<Span>, AllocError> {
    let mut parts = Vec::new(alloc);
    let mut chains = Vec::new(alloc);
    for step in steps {
        take_step(*step, &mut parts, &mut chains)?;
    }
    Ok(chains)
}

// Takes one step: the parts that it joins become one.
#[inline]
fn take_step(step: Step, parts: &mut Vec<Part>, chains: &mut Vec<Span>) -> Result<(), AllocError> {
    match step {
        Step::Number(span) | Step::Name(span) => put_part(parts, span.start, span.end, false),
        Step::Sign(_, span) => {
            let part = parts.pop().unwrap();
            put_part(parts, span.start, part.place.end, false)
        }
        Step::Apply(operator, _) => {
            let right = parts.pop().unwrap();
            let left = parts.pop().unwrap();
            put_chain(chains, operator, right)?;
            put_part(
                parts,
                left.place.start,
                right.place.end,
                is_tight_slash(operator),
            )
        }
        Step::Group(open, close) => {
            parts.pop().unwrap();
            put_part(parts, open.start, close.end, false)
        }
        Step::Comma(_) => {
            let right = parts.pop().unwrap();
            let left = parts.pop().unwrap();
            put_part(parts, left.place.start, right.place.end, false)
        }
        Step::Call(call) => {
            parts.pop().unwrap();
            put_part(parts, call.name.start, call.closing.end, false)
        }
    }
}

// Puts down a part from one place to another.
#[inline]
fn put_part(
    parts: &mut Vec<Part>,
    start: usize,
    end: usize,
    slashed: bool,
) -> Result<(), AllocError> {
    parts.push(Part {
        place: Span { start, end },
        slashed,
    })?;
    Ok(())
}

// Puts down the right side of an operator, if it is a chain that is taken whole.
#[inline]
fn put_chain(chains: &mut Vec<Span>, operator: Operator, right: Part) -> Result<(), AllocError> {
    match operator {
        Operator::Divide(Spacing::Wide) | Operator::Remainder(Spacing::Wide) if right.slashed => {
            chains.push(right.place)?;
            Ok(())
        }
        _ => Ok(()),
    }
}

// Whether the operator is a slash without spaces.
#[inline]
fn is_tight_slash(operator: Operator) -> bool {
    match operator {
        Operator::Divide(Spacing::Tight) => true,
        _ => false,
    }
}

// The text with parentheses around the chains, if it is shown.
#[inline]
fn shown(alloc: Global, text: &[u8], chains: &[Span]) -> Result<Option<Vec<u8>>, AllocError> {
    if chains.is_empty() || text.len() > LONGEST_SHOWN {
        return Ok(None);
    }
    let bytes = with_parentheses(alloc, text, chains)?;
    Ok(Some(bytes))
}

// The text with parentheses around the chains.
#[inline]
fn with_parentheses(alloc: Global, text: &[u8], chains: &[Span]) -> Result<Vec<u8>, AllocError> {
    let mut bytes = Vec::new(alloc);
    for (at, byte) in text.iter().enumerate() {
        put_marks(&mut bytes, chains, at)?;
        bytes.push(*byte)?;
    }
    put_marks(&mut bytes, chains, text.len())?;
    Ok(bytes)
}

// Puts down the parentheses at a place.
#[inline]
fn put_marks(bytes: &mut Vec<u8>, chains: &[Span], at: usize) -> Result<(), AllocError> {
    put_if(bytes, ends_at(chains, at), b')')?;
    put_if(bytes, begins_at(chains, at), b'(')
}

// Puts down a byte, if it is shown.
#[inline]
fn put_if(bytes: &mut Vec<u8>, shown: bool, byte: u8) -> Result<(), AllocError> {
    if shown {
        bytes.push(byte)?;
    }
    Ok(())
}

// Whether a chain begins at the place.
#[inline]
fn begins_at(chains: &[Span], at: usize) -> bool {
    chains.iter().any(|chain| chain.start == at)
}

// Whether a chain ends at the place.
#[inline]
fn ends_at(chains: &[Span], at: usize) -> bool {
    chains.iter().any(|chain| chain.end == at)
}
