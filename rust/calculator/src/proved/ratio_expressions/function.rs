// Erased from crates/ratio_expressions/src/function.rt by rust/erase: not to be edited.
//! `Function`: a function that a call names, and how many numbers it takes.

/// A function that a call names, such as `max` in `max(1, 2)`.
#[derive(Clone, Copy, PartialEq, Debug)]
pub(crate) enum Function {
    /// `abs(x)`: the absolute value.
    Abs,
    /// `floor(x)`: the greatest whole number that is not above the number.
    Floor,
    /// `ceil(x)`: the least whole number that is not below the number.
    Ceil,
    /// `round(x)`: the nearest whole number, a half rounded away from 0.
    Round,
    /// `trunc(x)`: the number cut towards 0.
    Trunc,
    /// `cents(x)`: the nearest multiple of 1/100, a half rounded away from 0.
    Cents,
    /// `gcd(x, ..)`: the greatest fraction of which each is a whole multiple.
    Gcd,
    /// `lcm(x, ..)`: the least fraction above 0 that is a whole multiple of each.
    Lcm,
    /// `min(x, ..)`: the least of the numbers.
    Min,
    /// `max(x, ..)`: the greatest of the numbers.
    Max,
    /// `nearest(x, most)`: the nearest fraction with a denominator from 1 to `most`.
    Nearest,
    /// `between(x, y)`: the simplest fraction strictly between the two numbers, in either order.
    Between,
}

/// The function with this name, or `None` if there is none.
#[inline]
pub(crate) fn function_named(name: &[u8]) -> Option<Function> {
    if name == b"abs".as_slice() {
        return Some(Function::Abs);
    }
    if name == b"floor".as_slice() {
        return Some(Function::Floor);
    }
    if name == b"ceil".as_slice() {
        return Some(Function::Ceil);
    }
    if name == b"round".as_slice() {
        return Some(Function::Round);
    }
    if name == b"trunc".as_slice() {
        return Some(Function::Trunc);
    }
    if name == b"cents".as_slice() {
        return Some(Function::Cents);
    }
    if name == b"gcd".as_slice() {
        return Some(Function::Gcd);
    }
    if name == b"lcm".as_slice() {
        return Some(Function::Lcm);
    }
    if name == b"min".as_slice() {
        return Some(Function::Min);
    }
    if name == b"max".as_slice() {
        return Some(Function::Max);
    }
    if name == b"nearest".as_slice() {
        return Some(Function::Nearest);
    }
    if name == b"between".as_slice() {
        return Some(Function::Between);
    }
    None
}

/// Whether the function takes so many numbers.
#[inline]
pub(crate) fn takes(function: Function, count: usize) -> bool {
    match function {
        Function::Gcd | Function::Lcm | Function::Min | Function::Max => count >= 1,
        Function::Nearest | Function::Between => count == 2,
        _ => count == 1,
    }
}
