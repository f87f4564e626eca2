//! Runs the calculator and the plain one on the same generated lines. It compares what they write, and prints
//! their times and the instructions that valgrind counts.
//!
//! Arguments: the calculator, the plain calculator, and a folder to work in.

#[path = "../random.rs"]
mod random;

use random::Random;
use std::fs::{self, File};
use std::path::Path;
use std::process::{Command, Stdio};
use std::time::Instant;

const LINES: usize = 100_000;
const ROUNDS: usize = 15;

/// A number of about this many bits, now and then in an unusual form.
fn number(bits: u32, random: &mut Random) -> String {
    let n = random.signed(1 << bits);
    match random.below(40) {
        0 => format!("{:+}", n),
        1 => format!("{}00{}", if n < 0 { "-" } else { "" }, n.unsigned_abs()),
        _ => n.to_string(),
    }
}

fn operand(random: &mut Random) -> String {
    let bits = [3, 7, 10, 15, 20, 31, 40, 63][random.below(8) as usize];
    match random.below(50) {
        0 => String::from(["", "x", "1/0", "1//2", "--3", "9223372036854775808", "1/2/3"][random.below(7) as usize]),
        1 => String::from("-9223372036854775808/-1"),
        2 => String::from("9223372036854775807/9223372036854775806"),
        3..=12 => number(bits, random),
        _ => format!("{}/{}", number(bits, random), random.below(1 << bits) + 1),
    }
}

fn operator(random: &mut Random) -> &'static str {
    ["+", "-", "*", "/", "%", "cmp"][random.below(6) as usize]
}

/// A line of up to six operators.
fn long_line(random: &mut Random) -> String {
    let others = (0..=random.below(6)).map(|_| format!(" {} {}", operator(random), operand(random))).collect::<String>();
    format!("{}{}", operand(random), others)
}

fn line(random: &mut Random) -> Vec<u8> {
    let operator = operator(random);
    let (left, right) = (operand(random), operand(random));
    let text = match random.below(100) {
        0 => format!("{}  {} {}", left, operator, right),
        1 => format!("{} ^ {}", left, right),
        2 => format!("{} {}", left, operator),
        3 => format!("{} {} {}{}", left, operator, "0".repeat(990), right),
        4 => format!("{} {} {}\r", left, operator, right),
        5 => long_line(random),
        _ => format!("{} {} {}", left, operator, right),
    };
    let mut bytes = text.into_bytes();
    if random.below(200) == 0 {
        bytes.push(0xff);
    }
    bytes.push(b'\n');
    bytes
}

/// Runs the program on the lines, and returns the seconds that it took.
fn run(program: &Path, input: &Path, output: &Path) -> f64 {
    let open = |path| File::open(path).expect("the lines were written");
    let start = Instant::now();
    let status = Command::new(program)
        .stdin(open(input))
        .stdout(File::create(output).expect("the folder can be written"))
        .status()
        .expect("the program starts");
    assert!(status.success(), "{} ended with {}", program.display(), status);
    start.elapsed().as_secs_f64()
}

/// The instructions of a run, as callgrind counts them.
fn instructions(program: &Path, input: &Path, folder: &Path) -> f64 {
    let done = Command::new("valgrind")
        .args(["--tool=callgrind", "--callgrind-out-file=callgrind.out"])
        .arg(program)
        .current_dir(folder)
        .stdin(File::open(input).expect("the lines were written"))
        .stdout(Stdio::null())
        .output()
        .expect("valgrind starts");
    let said = String::from_utf8_lossy(&done.stderr).into_owned();
    let line = said.lines().find(|it| it.contains("Collected :")).expect("callgrind counts");
    let count = line.rsplit(' ').next().expect("a last word");
    count.parse().expect("a number")
}

fn median(mut values: Vec<f64>) -> f64 {
    values.sort_by(|a, b| a.partial_cmp(b).expect("times are numbers"));
    values[values.len() / 2]
}

fn first_difference(lines: &[u8], ours: &[u8], theirs: &[u8]) -> Option<String> {
    let split = |bytes: &[u8]| -> Vec<String> {
        let texts = bytes.split(|b| *b == b'\n');
        texts.map(|t| String::from_utf8_lossy(t).into_owned()).collect()
    };
    let (lines, ours, theirs) = (split(lines), split(ours), split(theirs));
    let at = (0..lines.len()).find(|i| ours.get(*i) != theirs.get(*i))?;
    Some(format!("{:?}: {:?}, and the plain one {:?}", lines[at], ours.get(at), theirs.get(at)))
}

fn row(what: &str, ours: f64, theirs: f64, ratio: f64, goal: f64) {
    let met = if ratio <= goal { "met" } else { "**missed**" };
    println!("| {} | {:.0} | {:.0} | {:.2} | {:.1} | {} |", what, ours, theirs, ratio, goal, met);
}

fn main() {
    let arguments: Vec<String> = std::env::args().skip(1).collect();
    let (ours, theirs) = (Path::new(&arguments[0]), Path::new(&arguments[1]));
    let folder = Path::new(&arguments[2]);
    let input = folder.join("lines");
    let mut random = Random::new(20_240_229);
    let lines: Vec<u8> = (0..LINES).flat_map(|_| line(&mut random)).collect();
    fs::write(&input, &lines).expect("the folder can be written");

    let (our_answers, their_answers) = (folder.join("ours"), folder.join("theirs"));
    let (mut of_ours, mut of_theirs, mut ratios) = (Vec::new(), Vec::new(), Vec::new());
    for _ in 0..ROUNDS {
        let a = run(ours, &input, &our_answers);
        let b = run(theirs, &input, &their_answers);
        of_ours.push(a);
        of_theirs.push(b);
        ratios.push(a / b);
    }
    let read = |path| fs::read(path).expect("the program wrote it");
    let (a, b) = (read(&our_answers), read(&their_answers));
    if a != b {
        eprintln!("{}", first_difference(&lines, &a, &b).unwrap_or_default());
        std::process::exit(1);
    }

    let each = |seconds: f64| seconds * 1e9 / LINES as f64;
    let rate = |seconds: f64| LINES as f64 / seconds;
    let (a, b, ratio) = (median(of_ours), median(of_theirs), median(ratios));
    println!("| {} lines | Ours | Plain Rust | Ratio | Goal | |", LINES);
    println!("|---|---|---|---|---|---|");
    println!("| lines a second | {:.0} | {:.0} | {:.2} | | |", rate(a), rate(b), rate(a) / rate(b));
    row("nanoseconds a line", each(a), each(b), ratio, 0.5);
    let a = instructions(ours, &input, folder) / LINES as f64;
    let b = instructions(theirs, &input, folder) / LINES as f64;
    row("instructions a line", a, b, a / b, 0.6);
}
