//! A recipe for four, cooked for ten.

// Typed: `use num_rational::{ParseRatioError, Ratio, Reduced64};`. `from_text` says more about a refusal.
use num_rational::{Ratio, Reduced64, TextRefusal};

const PANCAKES: &str = "\
1 1/2 cups of flour
3/4 cup of milk
0.25 cup of sugar
2 eggs";

// Typed: `fn parse(line: &str) -> Result<(Reduced64, &str), ParseRatioError> {`. The same.
fn parse(line: &str) -> Result<(Reduced64, &str), TextRefusal> {
    let words = line.find(|c: char| c.is_alphabetic()).unwrap_or(line.len());
    let (amount, what) = line.split_at(words);
    Ok((Reduced64::from_text(amount.trim())?, what))
}

fn mixed(amount: Reduced64) -> String {
    let (whole, rest) = (amount.trunc(), amount.fract());
    if whole == 0 || rest == 0 {
        amount.to_string()
    } else {
        format!("{whole} {rest}")
    }
}

fn main() {
    let by = Reduced64::new(10, 4);
    let mut scaled = Vec::new();
    for line in PANCAKES.lines() {
        let (amount, what) = parse(line).unwrap();
        scaled.push(format!("{} {}", mixed(amount * by), what));
    }
    println!("{}", scaled.join("\n"));
    assert_eq!(scaled[0], "3 3/4 cups of flour");
    assert_eq!(scaled[1], "1 7/8 cup of milk");
    assert_eq!(scaled[2], "5/8 cup of sugar");
    assert_eq!(scaled[3], "5 eggs");

    let half: Ratio<i64> = "1/2".parse().unwrap();
    // Typed: `assert_eq!("1 1/2".parse::<Ratio<i64>>().unwrap(), half * 3);`. As num-rational's, `parse` takes no mixed number.
    assert_eq!(Reduced64::from_text("1 1/2").unwrap(), half * 3);
    assert_eq!(Ratio::<i64>::from_text("-2.50").unwrap(), half * -5);
    assert_eq!(Ratio::from_text("1 1/2"), Ok(half + 1));
    assert!("1/0".parse::<Reduced64>().is_err());
    assert!(Reduced64::from_text("a pinch").is_err());
    match parse("1/ cup") {
        Err(error) => println!("1/ cup: {error}"),
        Ok(_) => unreachable!(),
    }
}
