//! Totals by `==`, and totals that serde writes and reads again. The sums of the rows are from Python's `fractions`.

mod support;

use bakhsney::{integer::Integer, ratio, Reduced, Total};
use support::Numbers;

fn of<T: Integer>(numer: T, denom: T) -> Reduced<T> {
    Reduced::checked_new(numer, denom).unwrap()
}

/// A fraction of any numbers of the type.
fn drawn<T: Integer>(numbers: &mut Numbers) -> Reduced<T> {
    loop {
        let (numer, denom) = (T::from(numbers.of_any_length() >> 1), T::from(numbers.of_any_length()));
        let numer = numer.map(|numer| if numbers.below(2) == 0 { T::zero().checked_sub(&numer).unwrap_or(numer) } else { numer });
        if let Some(x) = numer.zip(denom).and_then(|(numer, denom)| Reduced::checked_new(numer, denom)) {
            return x;
        }
    }
}

/// A total of some fractions in and out, and of products.
fn total<T: Integer>(numbers: &mut Numbers) -> Total<T> {
    let mut total = Total::new();
    for _ in 0..numbers.below(30) {
        match numbers.below(4) {
            0 => total.subtract(drawn(numbers)),
            1 => _ = total.add_product(drawn(numbers), drawn(numbers)),
            _ => total.add(drawn(numbers)),
        }
    }
    total
}

/// Whether they are equal, in both orders.
fn are_equal<T: Integer>(x: &Total<T>, y: &Total<T>) -> bool {
    let is_equal = x == y;
    assert_eq!([y == x, x != y, y != x], [is_equal, !is_equal, !is_equal]);
    is_equal
}

#[test]
fn equal_by_the_sum() {
    let halves: Total<i64> = [ratio!(1/2), ratio!(1/2)].iter().sum();
    let mut one: Total<i64> = [ratio!(1)].iter().sum();
    assert!(are_equal(&halves, &one) && !are_equal(&halves, &Total::new()) && are_equal(&Total::<i64>::new(), &Total::new()));
    one -= ratio!(1/3);
    assert!(!are_equal(&halves, &one));
    one += ratio!(1/3);
    assert!(are_equal(&halves, &one));
    const WIDE: Reduced<i128> = ratio!(1/170141183460469231731687303715884105727, i128);
    let mut wide: Total<i128> = [WIDE, ratio!(2/3, i128)].iter().sum();
    let slots: Total<i128> = [ratio!(1/3, i128), ratio!(1/3, i128)].iter().sum();
    assert!(!are_equal(&wide, &slots));
    wide -= WIDE;
    assert!(are_equal(&wide, &slots));
}

/// x + y beside (x + y), and beside the same with 1/127 more.
#[test]
fn equal_pairs_of_i8() {
    let mut numbers = Numbers(3);
    for _ in 0..20_000 {
        let [x, y] = [(); 2].map(|_| of(numbers.word() as i8, 1 + numbers.below(127) as i8));
        let [x, y] = [x, y].map(|x: Reduced<i8>| x.cast::<i64>().unwrap());
        let mut apart: Total<i64> = [x, y].iter().sum();
        let whole: Total<i64> = x.checked_add(y).iter().sum();
        assert!(are_equal(&apart, &whole), "{x} {y}");
        apart += of(1, 127);
        assert!(!are_equal(&apart, &whole), "{x} {y}");
    }
}

/// The common denominator of 21,000 numbers below 2^64 is too long for `compare`. Without optimization, this would take minutes.
#[test]
#[cfg(not(debug_assertions))]
fn equal_beyond_the_bound_of_compare() {
    let total: Total<u64> = (0..21_000).map(|i| of(1, u64::MAX - i)).sum();
    let mut other = total.clone();
    other.add(of(1, 3));
    assert!(total.compare(&other).is_err() && total == total.clone() && total != other);
}

#[cfg(feature = "serde")]
mod serialized {
    use super::*;
    use bakhsney::Rounding;

    fn read<T: Integer>(text: &str) -> Result<Total<T>, String> {
        serde_json::from_str(text).map_err(|error| error.to_string().split(" at line").next().unwrap().to_owned())
    }

    /// Each read of a total.
    fn reads<T: Integer>(total: &Total<T>) -> impl PartialEq + std::fmt::Debug {
        (total.count(), total.sum(), total.mean(), total.to_f64(), total.decimal(30, Rounding::HalfEven), total.sign(), total.big_sum())
    }

    /// What is written, read again: the same reads, also after more fractions. And it is written as before.
    fn same_again<T: Integer>(total: &Total<T>, numbers: &mut Numbers) -> String {
        let text = serde_json::to_string(total).unwrap();
        let mut back: Total<T> = read(&text).unwrap();
        assert!(back == *total, "{text}");
        assert_eq!(reads(&back), reads(total), "{text}");
        let value = serde_json::to_value(total).unwrap();
        assert!(serde_json::from_value::<Total<T>>(value).unwrap() == *total, "{text}");
        let (mut total, more) = (total.clone(), self::total(numbers));
        total.merge(&more);
        back.merge(&more);
        let x = drawn(numbers);
        total.subtract(x);
        back.subtract(x);
        assert_eq!(reads(&back), reads(&total), "{text}");
        text
    }

    #[test]
    fn each_fraction_of_i8() {
        let mut numbers = Numbers(1);
        for (n, d) in (-128..=127i8).flat_map(|n| (1..=127i8).map(move |d| (n, d))) {
            let x = of(n, d);
            if x.into_raw() != (n, d) {
                continue;
            }
            let total: Total<i8> = [x].iter().sum();
            let text = serde_json::to_string(&total).unwrap();
            let slots = if n == 0 { String::new() } else { format!("\"{x}\"") };
            assert_eq!(text, format!("[1,1,[{slots}],null]"));
            let back: Total<i8> = read(&text).unwrap();
            assert_eq!((back.sum(), back.count()), (Ok(Some(x)), 1));
            if n % 16 == 0 {
                same_again(&total, &mut numbers);
            }
        }
    }

    #[test]
    fn drawn_totals() {
        let mut numbers = Numbers(2);
        for _ in 0..300 {
            let [narrow, short] = [total::<i8>(&mut numbers), total::<i8>(&mut numbers)];
            same_again(&narrow, &mut numbers);
            let mut difference = narrow;
            difference.take_out(&short);
            same_again(&difference, &mut numbers);
            let [x, y, z] = [total::<i64>(&mut numbers), total::<i64>(&mut numbers), total::<i64>(&mut numbers)];
            same_again(&[x, y, z].into_iter().sum::<Total<i64>>(), &mut numbers);
            let total: Total<u64> = total(&mut numbers);
            same_again(&total, &mut numbers);
        }
        for _ in 0..100 {
            let total: Total<i128> = total(&mut numbers);
            same_again(&total, &mut numbers);
            let total: Total<u128> = super::total(&mut numbers);
            same_again(&total, &mut numbers);
        }
    }

    #[test]
    fn rows() {
        let total: Total<i64> = [ratio!(1/2), ratio!(1/2), ratio!(1/3), ratio!(-7)].iter().sum();
        let mut back: Total<i64> = read(r#"[4,4,["1","-7","1/3"],null]"#).unwrap();
        assert_eq!((back.sum(), back.mean()), (Ok(Some(ratio!(-17/3))), Ok(Some(ratio!(-17/12)))));
        assert!(back == total);
        back.take_out(&total);
        assert_eq!((back.sum(), back.count()), (Ok(Some(ratio!(0))), 0));
        assert_eq!(serde_json::to_string(&back).unwrap(), r#"[0,8,["-1","1"],null]"#); // two halves were in a slot of their own
        assert_eq!(serde_json::to_string(&Total::<u8>::new()).unwrap(), "[0,0,[],null]");
        const WIDE: Reduced<i128> = ratio!(1/170141183460469231731687303715884105727, i128);
        let mut wide: Total<i128> = [WIDE, WIDE, ratio!(1/2, i128)].iter().sum();
        let text = r#"[3,3,["1/2"],[2,"2/170141183460469231731687303715884105727"]]"#;
        assert_eq!(serde_json::to_string(&wide).unwrap(), text);
        wide -= read(text).as_ref().unwrap();
        assert_eq!((wide.sum(), wide.count()), (Ok(Some(ratio!(0, i128))), 0));
        assert_eq!(serde_json::to_string(&wide).unwrap(), r#"[0,6,[],[4,"0"]]"#);
    }

    /// Denominators that were written twice are one slot, and many of them have a table of their own.
    #[test]
    fn many_slots() {
        let back: Total<i8> = read(r#"[2,4,["1/2","1/3","1/2","-1/3"],null]"#).unwrap();
        assert_eq!((back.sum(), back.count()), (Ok(Some(of(1, 1))), 2));
        let total: Total<i64> = (1..=5000).map(|denom| of(1, denom)).sum();
        let text = serde_json::to_string(&total).unwrap();
        let list: Vec<String> = (2..=5000).map(|denom| format!("\"1/{denom}\"")).collect();
        assert_eq!(text, format!("[5000,5000,[\"1\",{}],null]", list.join(",")));
        let mut back: Total<i64> = read(&text).unwrap();
        (1..=5000).for_each(|denom| back.subtract(of(1, denom)));
        assert_eq!((back.sum(), back.count()), (Ok(Some(of(0, 1))), 0));
    }

    /// So many fractions have no such sum. A fraction in a slot has a numerator below 2^64, and each other one a number below 2^128.
    #[test]
    fn sums_have_bounds() {
        let refusal = "no total has these fractions after so many additions";
        for (text, is_read) in [
            (r#"[0,1,["18446744073709551615"],null]"#, true),
            (r#"[0,1,["18446744073709551616"],null]"#, false),
            (r#"[0,1,["-18446744073709551615/2"],null]"#, true),
            (r#"[0,2,["-36893488147419103231"],null]"#, false),
            (r#"[0,2,["18446744073709551615/7","18446744073709551615/7"],null]"#, true),
            (r#"[0,1,["18446744073709551615/7","18446744073709551615/7"],null]"#, false),
            (r#"[0,0,["1/2"],null]"#, false),
            (r#"[0,0,["0"],null]"#, true),
            (r#"[1,1,[],null]"#, true),
            (r#"[2,1,[],null]"#, false),
            (r#"[-1,1,[],null]"#, true),
            (r#"[-2,1,[],null]"#, false),
            (r#"[-9223372036854775808,9223372036854775807,[],null]"#, false),
            (r#"[0,9223372036854775807,["1"],null]"#, true),
            (r#"[0,9223372036854775808,["1"],null]"#, false),
            (r#"[0,9223372036854775807,["170141183460469231704017187605319778304/5"],null]"#, true),
            (r#"[0,9223372036854775807,["170141183460469231704017187605319778306/5"],null]"#, false),
            (r#"[0,9223372036854775807,["170141183460469231731687303715884105727","170141183460469231731687303715884105727"],null]"#, false),
            (r#"[0,1,[],[1,"340282366920938463463374607431768211456"]]"#, true),
            (r#"[0,1,[],[1,"340282366920938463463374607431768211457"]]"#, false),
            (r#"[0,1,[],[1,"-340282366920938463463374607431768211456/1"]]"#, true),
            (r#"[0,1,[],[1,"-340282366920938463463374607431768211457/1"]]"#, false),
            (r#"[0,2,[],[1,"340282366920938463463374607431768211457"]]"#, false),
            (r#"[0,2,[],[2,"340282366920938463463374607431768211457"]]"#, true),
            (r#"[0,1,[],[1,"2381976568446569244243622252022377480193/7"]]"#, false),
            (r#"[0,1,[],[1,"2381976568446569244243622252022377480191/7"]]"#, true),
            (r#"[0,1,[],[2,"1/2"]]"#, false),
            (r#"[0,0,[],[0,"0"]]"#, true),
            (r#"[0,0,[],[0,"1/340282366920938463463374607431768211455"]]"#, false),
        ] {
            let back = read::<i128>(text);
            assert_eq!(back.as_ref().err().map(|error| &**error), if is_read { None } else { Some(refusal) }, "{text}");
            if let Ok(back) = back {
                let mut twice = back.clone();
                let all = std::panic::catch_unwind(std::panic::AssertUnwindSafe(|| twice.merge(&back)));
                assert_eq!(all.is_ok(), !text.contains("9223372036854775807"), "{text}");
            }
        }
    }

    #[test]
    fn other_values() {
        for text in ["[]", "[1,1]", "[1,1,[]]", "[1,1,[],null,1]", "null", "7", "\"1\"", "{}", "[1,-1,[],null]", "[1,1,[1],null]", "[1,1,[\"x\"],null]"] {
            assert!(read::<i64>(text).is_err(), "{text}");
        }
        for text in ["[1,1,[\"1/0\"],null]", "[1,1,[],[1,\"1/0\"]]", "[1,1,[],[1]]", "[1,1,[],[1,1]]", "[1,1,[],[-1,\"1\"]]", "[1.0,1,[],null]"] {
            assert!(read::<i64>(text).is_err(), "{text}");
        }
        assert_eq!(read::<i64>("[1,1,[\"1/18446744073709551616\"],null]").unwrap_err(), "a denominator in a slot is 2^64 or more");
        assert_eq!(read::<i64>("[1,1,[\"x\"],null]").unwrap_err(), "the text is not a number such as -0.5, 3/4, -1 1/2 or 12.5%");
    }

    /// A common denominator of 2^(2^20) or more has no room. Its text is refused before it is computed.
    #[test]
    fn long_sums() {
        let total = |text: &str| read::<u128>(&format!("[0,9,[],[9,\"{text}\"]]"));
        let back = total(&format!("1/1{}", "0".repeat(315_652))).unwrap();
        assert_eq!(back.decimal(3, Rounding::Up), Ok("0.001".to_owned()));
        for text in [format!("1/1{}", "0".repeat(4_000_000)), format!("1{}/3", "0".repeat(4_000_000)), "1e-1000000000".to_owned()] {
            assert_eq!(total(&text).unwrap_err(), "the numerator or the denominator has more bits than the bound", "{text:.20}");
        }
        for text in [format!("1/1{}", "0".repeat(315_653)), format!("1{}/7", "0".repeat(500))] {
            assert_eq!(total(&text).unwrap_err(), "no total has these fractions after so many additions", "{text:.20}");
        }
    }
}
