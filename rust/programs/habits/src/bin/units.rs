//! A unit converter: every factor is a constant, and nothing is rounded.

use num_rational::{ratio, Ratio, Reduced64};

const INCH: Reduced64 = ratio!(254/100);
const FOOT: Reduced64 = Reduced64::const_new(3048, 100);
const MILE: Ratio<i64> = Ratio::new_raw(160_934_400, 1000);
// Typed: `const POUND: Reduced64 = ratio!(0.45359237);`. The macro takes whole numbers, and no float.
const POUND: Reduced64 = ratio!(45_359_237 / 100_000_000);
const ZERO: Reduced64 = Reduced64::ZERO;
static TABLE: [(&str, Reduced64); 4] =
    [("cm", Reduced64::ONE), ("m", ratio!(100)), ("in", INCH), ("ft", FOOT)];

fn factor(unit: &str) -> Option<Reduced64> {
    TABLE.iter().find(|(name, _)| *name == unit).map(|&(_, factor)| factor)
}

fn convert(amount: Reduced64, from: &str, to: &str) -> Option<Reduced64> {
    Some(amount * factor(from)? / factor(to)?)
}

fn main() {
    assert_eq!(convert(1.into(), "ft", "in"), Some(12.into()));
    assert_eq!(convert(ratio!(5/2), "in", "cm"), Some(ratio!(635/100)));
    assert_eq!(convert(Reduced64::new(1, 3), "m", "ft"), Some(Reduced64::new(1250, 1143)));
    assert_eq!(convert(Reduced64::ONE, "m", "parsec"), None);

    // Typed: `assert_eq!(MILE / FOOT, Ratio::from(5280));`. A `Ratio` has the operators of num-rational, and takes no `Reduced`.
    assert_eq!(MILE / Ratio::from(FOOT), Ratio::from(5280));
    assert_eq!(MILE.reduced(), Ratio::from(MILE));
    assert_eq!(POUND * 2 + ZERO, Reduced64::new(45_359_237, 50_000_000));

    let celsius = |fahrenheit: Reduced64| (fahrenheit - 32) * ratio!(5/9);
    assert_eq!(celsius(212.into()), 100);
    assert_eq!(celsius(ratio!(-40)), ratio!(-40));
    assert_eq!(celsius(100.into()).to_string(), "340/9");
    println!("{} in, {} lb", convert(1.into(), "m", "in").unwrap(), POUND.recip());
    match INCH.cmp(&FOOT) {
        std::cmp::Ordering::Less => println!("an inch is {} ft", INCH / FOOT),
        _ => unreachable!(),
    }
}
