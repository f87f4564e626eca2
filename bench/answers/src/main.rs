//! The questions of the README's first table. A line has a question, the statement of PostgreSQL, the expression of Python, and the answers of
//! num-rational and of this library, with tabs between.
use bakhsney::{split, Reduced, Reduced64, Rounding, Total};
use num_rational::Ratio;
use std::fmt::Display;
use std::panic::catch_unwind;

const NO_CALL: &str = "no call";

/// What an expression of num-rational gives in a release build.
fn theirs<T: Display>(compute: fn() -> T) -> String {
    catch_unwind(|| compute().to_string()).unwrap_or_else(|_| "panics".to_owned())
}

fn ours<T: Display>(result: Option<T>) -> String {
    result.map_or("`None`".to_owned(), |value| value.to_string())
}

fn decimal(text: &str) -> Reduced64 {
    Reduced64::from_decimal(text).unwrap()
}

/// The thirds of 100 in cents, added up again.
fn thirds_of_hundred() -> Option<String> {
    let third = Reduced64::checked_new(1, 3)?;
    let mut cents = [0; 3];
    split(10_000, &[third; 3], &mut cents).ok()?;
    let sum: Option<Reduced64> = cents.iter().filter_map(|&cents| Reduced64::checked_new(cents, 100)).sum();
    Some(sum?.decimal(2, Rounding::HalfEven).to_string())
}

fn harmonic() -> Option<String> {
    let total: Total<i64> = (1..=1000).filter_map(|n| Reduced::checked_new(1, n)).collect::<Vec<_>>().iter().sum();
    total.decimal(20, Rounding::HalfEven).ok()
}

fn yes(is: bool) -> &'static str {
    if is { "yes" } else { "no" }
}

fn main() {
    std::panic::set_hook(Box::new(|_| ()));
    let third = Reduced64::checked_new(1, 3).unwrap();
    let part = Reduced64::checked_new(1, 49).unwrap();
    let tiny = Reduced::checked_new(1i8, 127).unwrap();
    let rows = [
        (
            "1/3 + 1/3 + 1/3",
            "1/3::numeric + 1/3::numeric + 1/3::numeric",
            "1/3 + 1/3 + 1/3",
            theirs(|| Ratio::new(1i64, 3) + Ratio::new(1, 3) + Ratio::new(1, 3)),
            ours(third.checked_mul(3)),
        ),
        ("49 times 1/49", "49 * (1 / 49::numeric)", "49 * (1 / 49)", theirs(|| Ratio::new(1i64, 49) * 49), ours(part.checked_mul(49))),
        ("0.1 + 0.2", "0.1 + 0.2", "0.1 + 0.2", NO_CALL.to_owned(), ours(decimal("0.1").checked_add(decimal("0.2")))),
        (
            "2^53 + 1",
            "9007199254740992 + 1",
            "2.0**53 + 1",
            theirs(|| Ratio::from_integer(1i64 << 53) + 1),
            ours(Reduced64::from(1 << 53).checked_add(1)),
        ),
        (
            "2.675 with two places",
            "round(2.675, 2)",
            "round(2.675, 2)",
            NO_CALL.to_owned(),
            decimal("2.675").decimal(2, Rounding::HalfEven).to_string(),
        ),
        (
            "three thirds of 100.00, in cents",
            "3 * round(100 / 3::numeric, 2)",
            "3 * round(100 / 3, 2)",
            NO_CALL.to_owned(),
            ours(thirds_of_hundred()),
        ),
        (
            "1/1 + 1/2 + .. + 1/1000, 20 places",
            "round(sum(1 / n::numeric), 20) FROM generate_series(1, 1000) n",
            "f'{sum(1 / n for n in range(1, 1001)):.20f}'",
            theirs(|| (1..=1000).map(|n| Ratio::new(1i64, n)).sum::<Ratio<i64>>()),
            ours(harmonic()),
        ),
        (
            "2^63-1 plus 1",
            "9223372036854775807::numeric + 1",
            "9223372036854775807.0 + 1",
            theirs(|| Ratio::from_integer(i64::MAX) + 1),
            ours(Reduced64::from(i64::MAX).checked_add(1)),
        ),
        ("1 + 1/127, in 8 bits", "", "", theirs(|| Ratio::new(1i8, 1) + Ratio::new(1, 127)), ours(tiny.checked_add(1))),
        (
            "1 is above 1/-1",
            "",
            "",
            theirs(|| yes(Ratio::from_integer(1i8) > Ratio::new_raw(1, -1))),
            yes(bakhsney::Ratio::from_integer(1i8) > bakhsney::Ratio::new_raw(1, -1)).to_owned(),
        ),
    ];
    for (question, statement, expression, theirs, ours) in rows {
        println!("{question}\t{statement}\t{expression}\t{theirs}\t{ours}");
    }
}
