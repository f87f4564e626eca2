//! A store of pictures by the ratio of their sides, as a map with fractions for keys, and as JSON.
use num_rational::Ratio;
use std::collections::{BTreeMap, HashMap, HashSet};

type Sides = Ratio<u32>;

fn main() {
    let pictures = [("coast", 1920, 1080), ("dunes", 1280, 720), ("harbour", 1024, 768), ("lamp", 800, 600), ("pier", 1080, 1920), ("roofs", 3440, 1440), ("square", 512, 512)];
    let mut store: HashMap<Sides, Vec<&str>> = HashMap::new();
    for (name, width, height) in pictures {
        store.entry(Ratio::new(width, height)).or_default().push(name);
    }
    println!("{} pictures of {} shapes", pictures.len(), store.len());
    println!("as 16/9: {:?}, as 4/3: {:?}, as 3/2: {:?}", store.get(&Ratio::new(32, 18)), store[&Ratio::new_raw(12, 9)], store.get(&Ratio::new(3, 2)));

    let sorted: BTreeMap<Sides, Vec<&str>> = store.into_iter().collect();
    for (sides, names) in &sorted {
        println!("{:>6} {}", sides.to_string(), names.join(", "));
    }
    let wide: Vec<_> = sorted.range(Ratio::new(3, 2)..).map(|(sides, _)| sides.to_string()).collect();
    println!("wide: {}", wide.join(" "));

    let text = serde_json::to_string(&sorted.iter().collect::<Vec<_>>()).unwrap();
    println!("{text}");
    let read: Vec<(Sides, Vec<String>)> = serde_json::from_str(&text).unwrap();
    println!("the same again: {}", read.iter().map(|(sides, _)| sides).eq(sorted.keys()));
    for broken in ["[1,0]", "[-1,2]", "[1]", "\"1/2\"", "[4294967296,1]"] {
        println!("{broken}: {}", serde_json::from_str::<Sides>(broken).is_ok());
    }
    let raw: Sides = serde_json::from_str("[2,4]").unwrap();
    println!("{} {} {}", raw, raw == Ratio::new(1, 2), HashSet::from([raw, Ratio::new(1, 2), Ratio::new(2, 1)]).len());
}
