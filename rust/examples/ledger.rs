//! A ledger of three people. Each amount is split by shares into whole cents, and no cent is lost or made:
//!
//! ```text
//! rent 1000.00: 500.00 333.33 166.67
//! dinner 100.00: 33.33 33.34 33.33
//! power 99.99: 12.50 49.99 37.50
//! gift 50.00: the shares do not add up to 1
//! book 9.999: not whole cents
//! Ann, Bea and Cy owe 545.83 416.66 237.50
//! together 1199.99
//! ```
use bakhsney::{split, Reduced64, Rounding};

/// An amount, and the shares of Ann, Bea and Cy.
const ROWS: [(&str, &str, [&str; 3]); 5] = [
    ("rent", "1000.00", ["1/2", "1/3", "1/6"]),
    ("dinner", "100.00", ["1/3", "1/3", "1/3"]),
    ("power", "99.99", ["12.5%", "50%", "37.5%"]),
    ("gift", "50.00", ["1/2", "1/3", "1/3"]),
    ("book", "9.999", ["1/3", "1/3", "1/3"]),
];

fn read(text: &str) -> Result<Reduced64, String> {
    Reduced64::from_text(text).map_err(|refusal| refusal.to_string())
}

fn cents(amount: &str) -> Result<i64, String> {
    let cents = read(amount)?.checked_mul(100).ok_or("too large")?;
    if cents.is_integer() { Ok(cents.to_integer()) } else { Err("not whole cents".to_owned()) }
}

fn parts(amount: &str, shares: [&str; 3]) -> Result<[i64; 3], String> {
    let shares = [read(shares[0])?, read(shares[1])?, read(shares[2])?];
    let mut parts = [0; 3];
    split(cents(amount)?, &shares, &mut parts).map_err(|refusal| refusal.to_string())?;
    Ok(parts)
}

fn text(cents: i64) -> String {
    let amount = Reduced64::checked_new(cents, 100).expect("100 is not 0, and the fraction has no longer terms");
    amount.decimal(2, Rounding::HalfEven).to_string()
}

fn main() {
    let mut owed = [0; 3];
    for (name, amount, shares) in ROWS {
        match parts(amount, shares) {
            Ok(parts) => {
                println!("{name} {amount}: {}", parts.map(text).join(" "));
                owed.iter_mut().zip(parts).for_each(|(owed, part)| *owed += part);
            }
            Err(refusal) => println!("{name} {amount}: {refusal}"),
        }
    }
    println!("Ann, Bea and Cy owe {}", owed.map(text).join(" "));
    println!("together {}", text(owed.iter().sum()));
}
