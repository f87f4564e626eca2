//! A converter of units. It keeps each amount as an exact fraction, and shows it as a fraction and as a float.
use num_rational::Rational64;
use num_traits::ToPrimitive;
use std::collections::BTreeMap;

/// Each unit with its kind, and how many of the kind's first unit it is.
fn units() -> BTreeMap<&'static str, (&'static str, Rational64)> {
    let inch = Rational64::new(254, 10_000);
    let foot = inch * 12;
    let pound = Rational64::new(45_359_237, 100_000_000);
    BTreeMap::from([
        ("m", ("length", Rational64::from_integer(1))),
        ("km", ("length", 1000.into())),
        ("in", ("length", inch)),
        ("ft", ("length", foot)),
        ("mi", ("length", foot * 5280)),
        ("nmi", ("length", 1852.into())),
        ("kg", ("mass", 1.into())),
        ("lb", ("mass", pound)),
        ("oz", ("mass", pound / 16)),
    ])
}

fn convert(line: &str) -> Result<String, String> {
    let units = units();
    let unit = |name: &str| units.get(name).copied().ok_or(format!("no unit {name}"));
    let words: Vec<&str> = line.split(' ').collect();
    let (amount, from, to) = match words[..] {
        [amount, from, "in", to] => (amount, from, to),
        _ => return Err("write 'AMOUNT UNIT in UNIT'".to_owned()),
    };
    let amount: Rational64 = amount.parse().map_err(|refusal| format!("{amount}: {refusal}"))?;
    let ((kind, from_size), (other, to_size)) = (unit(from)?, unit(to)?);
    if kind != other {
        return Err(format!("{from} is a {kind}, and {to} is a {other}"));
    }
    let result = amount * from_size / to_size;
    let float = result.to_f64().unwrap();
    let whole = if result.is_integer() { "exactly " } else { "" };
    Ok(format!("{whole}{result} {to}, about {float:.6}, and {} whole ones", result.to_integer()))
}

fn main() {
    for line in ["1 mi in km", "26 mi in ft", "1/2 ft in in", "-3/4 nmi in m", "10 km in mi", "1 kg in lb", "7/2 oz in kg", "1 kg in km", "x ft in m", "1/0 ft in m", "5 ft", "1 ly in m"] {
        match convert(line) {
            Ok(answer) => println!("{line:>14} = {answer}"),
            Err(refusal) => println!("{line:>14} : {refusal}"),
        }
    }
    let third = Rational64::new(1, 3);
    println!("a third of a metre: {:?} and {:?}", third.to_f64(), third.to_f32());
    println!("0.3048 m as a fraction: {:?}", Rational64::approximate_float(0.3048).map(|x| x.to_string()));
}
