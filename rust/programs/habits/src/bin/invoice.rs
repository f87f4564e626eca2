//! An invoice: exact prices, a discount, and the tax, rounded once at the end.

use num_rational::Reduced64;
use num_traits::{Signed, Zero};

struct Line {
    what: &'static str,
    price: Reduced64,
    quantity: i64,
}

impl Line {
    fn amount(&self) -> Reduced64 { self.price * self.quantity }
}

fn cents(amount: Reduced64) -> i64 {
    (amount * 100).round().to_integer()
}

fn main() {
    let lines = vec![
        Line { what: "rope, metres", price: Reduced64::new(349, 100), quantity: 7 },
        Line { what: "nails, three a euro", price: Reduced64::new(1, 3), quantity: 20 },
        Line { what: "saw", price: 25.into(), quantity: 1 },
    ];

    let mut net = Reduced64::zero();
    for line in &lines {
        println!("{:<24}{:>10}", line.what, line.amount());
        net += line.amount();
    }
    assert_eq!(net, Reduced64::new(16829, 300));
    assert!(net > 56 && net < 57);
    let amounts: Vec<Reduced64> = lines.iter().map(Line::amount).collect();
    assert_eq!(amounts.iter().sum::<Reduced64>(), net);
    assert_eq!(amounts.iter().copied().sum::<Reduced64>(), net);
    assert_eq!(amounts.iter().max().copied(), Some(25.into()));

    let discount = -net / 20;
    let tax = (net + discount) * Reduced64::new(19, 100);
    let mut owed = net;
    owed += discount;
    owed += tax;
    assert!(discount.is_negative());
    assert_eq!(discount, Reduced64::new(-16829, 6000));
    assert_eq!(owed, Reduced64::new(38050369, 600000));
    assert_eq!((cents(net), cents(owed)), (5610, 6342));

    owed -= 20;
    owed *= 2;
    owed /= 4;
    assert_eq!(owed, (Reduced64::new(38050369, 600000) - 20) / 2);
    println!("net {net}, discount {discount}, owed {} cents", cents(owed));
}
