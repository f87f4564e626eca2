//! The tested calls of the Rust crate, each with the exact result.

use crate::exact;
use crate::operands::{show_fraction, Fraction, Operands};
use num_rational::Ratio;
use num_traits::{CheckedDiv, CheckedMul};
use std::hash::{DefaultHasher, Hash};
use std::panic::{catch_unwind, UnwindSafe};

/// What the search looks for: a panic though there is a result, or another result.
pub enum Fault {
    Panics,
    Answers,
}

pub struct Call {
    pub name: &'static str,
    pub fault: Fault,
    pub theirs: fn(Operands) -> String,
    pub exact: fn(Operands) -> Option<String>,
    pub show: fn(Operands) -> String,
}

/// What a call returns, or that it panics.
pub fn caught(call: impl FnOnce() -> String + UnwindSafe) -> String {
    catch_unwind(call).unwrap_or_else(|_| "panics".to_string())
}

fn raw((n, d): Fraction) -> Ratio<i8> {
    Ratio::new_raw(n, d)
}

fn shown(x: Ratio<i8>) -> String {
    show_fraction(x.into())
}

fn shown_option(x: Option<Ratio<i8>>) -> String {
    x.map_or("None".to_string(), shown)
}

fn show_raw((n, d): Fraction) -> String {
    if d == 1 {
        format!("`{n}`")
    } else {
        format!("`new_raw({n}, {d})`")
    }
}

fn show_pair((x, y): Operands) -> String {
    format!("{} and {}", show_raw(x), show_raw(y))
}

fn show_first((x, _): Operands) -> String {
    show_raw(x)
}

fn show_text((x, _): Operands) -> String {
    format!("`\"{}/{}\"`", x.0, x.1)
}

fn compared((x, y): Operands) -> String {
    format!("{:?}", raw(x).cmp(&raw(y)))
}

fn hashed((x, _): Operands) -> String {
    raw(x).hash(&mut DefaultHasher::new());
    "a hash".to_string()
}

fn read((x, _): Operands) -> String {
    match format!("{}/{}", x.0, x.1).parse::<Ratio<i8>>() {
        Ok(fraction) => shown(fraction),
        Err(_) => "parse error".to_string(),
    }
}

pub const CALLS: &[Call] = &[
    Call {
        name: "cmp, another answer",
        fault: Fault::Answers,
        theirs: compared,
        exact: exact::order,
        show: show_pair,
    },
    Call {
        name: "cmp",
        fault: Fault::Panics,
        theirs: compared,
        exact: exact::order,
        show: show_pair,
    },
    Call {
        name: "==",
        fault: Fault::Panics,
        theirs: |(x, y)| (raw(x) == raw(y)).to_string(),
        exact: exact::equal,
        show: show_pair,
    },
    Call {
        name: "hash",
        fault: Fault::Panics,
        theirs: hashed,
        exact: exact::hashed,
        show: show_first,
    },
    Call {
        name: "checked_mul",
        fault: Fault::Answers,
        theirs: |(x, y)| shown_option(raw(x).checked_mul(&raw(y))),
        exact: exact::product,
        show: show_pair,
    },
    Call {
        name: "checked_div, another answer",
        fault: Fault::Answers,
        theirs: |(x, y)| shown_option(raw(x).checked_div(&raw(y))),
        exact: exact::quotient,
        show: show_pair,
    },
    Call {
        name: "checked_div",
        fault: Fault::Panics,
        theirs: |(x, y)| shown_option(raw(x).checked_div(&raw(y))),
        exact: exact::quotient,
        show: show_pair,
    },
    Call {
        name: "+",
        fault: Fault::Panics,
        theirs: |(x, y)| shown(raw(x) + raw(y)),
        exact: exact::refused_sum,
        show: show_pair,
    },
    Call {
        name: "*",
        fault: Fault::Panics,
        theirs: |(x, y)| shown(raw(x) * raw(y)),
        exact: exact::product,
        show: show_pair,
    },
    Call {
        name: "/",
        fault: Fault::Panics,
        theirs: |(x, y)| shown(raw(x) / raw(y)),
        exact: exact::quotient,
        show: show_pair,
    },
    Call {
        name: "%",
        fault: Fault::Panics,
        theirs: |(x, y)| shown(raw(x) % raw(y)),
        exact: exact::remainder,
        show: show_pair,
    },
    Call {
        name: "floor",
        fault: Fault::Panics,
        theirs: |(x, _)| shown(raw(x).floor()),
        exact: exact::floor,
        show: show_first,
    },
    Call {
        name: "ceil",
        fault: Fault::Panics,
        theirs: |(x, _)| shown(raw(x).ceil()),
        exact: exact::ceil,
        show: show_first,
    },
    Call {
        name: "from_str",
        fault: Fault::Panics,
        theirs: read,
        exact: exact::text,
        show: show_text,
    },
];
