//! A scheduler of beats. Each voice divides a bar into equal parts. Voices that meet do so at the same moment, since the times are
//! fractions and not floats.
use num_rational::Ratio;
use std::cmp::Reverse;
use std::collections::BinaryHeap;

struct Voice {
    name: &'static str,
    period: Ratio<u32>,
}

/// Each moment of the bars, with the voices that beat then.
fn schedule(voices: &[Voice], bars: u32) -> Vec<(Ratio<u32>, Vec<&'static str>)> {
    let mut next: BinaryHeap<_> = voices.iter().enumerate().map(|(i, _)| Reverse((Ratio::from_integer(0), i))).collect();
    let mut moments: Vec<(Ratio<u32>, Vec<&str>)> = Vec::new();
    while let Some(Reverse((time, i))) = next.pop() {
        if time >= bars.into() {
            continue;
        }
        match moments.last_mut() {
            Some((last, names)) if *last == time => names.push(voices[i].name),
            _ => moments.push((time, vec![voices[i].name])),
        }
        next.push(Reverse((time + voices[i].period, i)));
    }
    moments
}

fn main() {
    let voices = [
        Voice { name: "bass", period: Ratio::new(1, 2) },
        Voice { name: "snare", period: Ratio::new(1, 3) },
        Voice { name: "hat", period: Ratio::new(1, 4) },
        Voice { name: "bell", period: Ratio::new(3, 5) },
    ];
    let moments = schedule(&voices, 3);
    for (time, names) in &moments {
        println!("bar {} at {:<5} {}", time.to_integer() + 1, time.fract().to_string(), names.join(" and "));
    }
    let gaps: Vec<Ratio<u32>> = moments.windows(2).map(|pair| pair[1].0 - pair[0].0).collect();
    let (least, most) = (gaps.iter().min().unwrap(), gaps.iter().max().unwrap());
    println!("{} moments, {} together, from {least} to {most} apart", moments.len(), moments.iter().filter(|(_, names)| names.len() > 1).count());
    println!("in milliseconds at 90 bars a minute: {}", moments.iter().take(8).map(|(time, _)| (time * 60_000 / 90).round().to_string()).collect::<Vec<_>>().join(" "));
}
