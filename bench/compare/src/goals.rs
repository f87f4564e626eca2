//! The goals: a call may take at most this part of the crate's time.

/// No call may take more than this, unless every result is `None`.
pub const MOST: f64 = 1.2;

pub fn goal(call: &str, kind: &str) -> f64 {
    let simple = kind == "small" || kind == "half";
    match call {
        "cmp" if simple => 0.2,
        "cmp" if kind == "equal denominators" => MOST,
        "cmp" => 0.8,
        "gcd" | "reduced" => 0.7,
        "checked_add" | "checked_sub" if simple => 0.5,
        "checked_mul" | "checked_div" if simple => 0.3,
        "floor" | "round" => 0.8,
        "to_integer" | "recip" | "bare recip" | "pow" => 1.0,
        "hash" => 0.9,
        "from_str" | "from_str_radix" | "hex" | "{:x}" => 0.6,
        "text" => 0.4,
        _ => MOST,
    }
}
