//! Fractions as keys: slopes that repeat, an ordered index, ranges, sets.

use num_rational::{BigFraction, Ratio, Reduced64};
use std::collections::{BTreeMap, BTreeSet, HashMap, HashSet};
use std::hash::Hash;

fn tally<K: Hash + Eq>(keys: impl IntoIterator<Item = K>) -> HashMap<K, usize> {
    let mut counts = HashMap::new();
    for key in keys {
        *counts.entry(key).or_default() += 1;
    }
    counts
}

fn main() {
    let points = [(1, 2), (2, 4), (3, 6), (2, 1), (4, 2), (-1, -2)];
    let slopes = tally(points.iter().map(|&(x, y)| Ratio::new(y, x)));
    assert_eq!(slopes.len(), 2);
    assert_eq!(slopes[&Ratio::from_integer(2)], 4);
    assert_eq!(slopes.get(&Ratio::new(-1, -2)), Some(&2));

    let reduced = tally(points.map(|(x, y)| Reduced64::new(y, x)));
    assert_eq!(reduced[&2.into()], 4);
    let big = tally(points.map(|(x, y)| BigFraction::new(y, x)));
    assert_eq!(big[&BigFraction::new(1, 2)], 2);

    let mut drills = BTreeMap::new();
    for (n, d) in [(3, 8), (1, 4), (5, 16), (1, 2), (7, 16)] {
        drills.insert(Reduced64::new(n, d), format!("{n}/{d} inch"));
    }
    let fits: Vec<_> = drills.range(Reduced64::new(10, 32)..).map(|(size, _)| *size).collect();
    assert_eq!(fits.len(), 4);
    assert_eq!(fits[0], Reduced64::new(5, 16));
    let (smallest, name) = drills.iter().next().unwrap();
    println!("smallest: {smallest} = {name}");

    let farey: BTreeSet<Ratio<i32>> =
        (1..=5).flat_map(|d| (0..=d).map(move |n| Ratio::new(n, d))).collect();
    let texts: Vec<_> = farey.iter().map(ToString::to_string).collect();
    assert_eq!(texts.join(" "), "0 1/5 1/4 1/3 2/5 1/2 3/5 2/3 3/4 4/5 1");

    let mut sizes: Vec<Reduced64> = drills.into_keys().rev().collect();
    sizes.sort_unstable();
    assert_eq!(sizes.binary_search(&Reduced64::new(3, 8)), Ok(2));
    assert_eq!(sizes[4].clamp(sizes[0], sizes[3]), Reduced64::new(7, 16));
    let distinct: HashSet<BigFraction> = sizes.iter().map(|&size| size.into()).collect();
    assert_eq!(distinct.len(), 5);
}
