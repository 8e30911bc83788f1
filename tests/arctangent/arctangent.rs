// `arctangent answers`: for each line of standard input, a name and the bits of its arguments, prints the bits of our answer.
// `arctangent machine COUNT`: compares ours with the machine's on random arguments of the domain.
use std::io::{BufRead, Write};

extern "C" {
    fn watered_atan2(y: f64, x: f64) -> f64;
    fn watered_acos(c: f64) -> f64;
    fn watered_asin(c: f64) -> f64;
}

// The machine's angle is good to about 2^-52, ours was seen within 2^-50 of it; this is the bound that the run holds it to.
const BOUND: f64 = 1.0 / (1u64 << 48) as f64;

fn answers() {
    let mut out = std::io::BufWriter::new(std::io::stdout());
    for line in std::io::stdin().lock().lines() {
        let line = line.unwrap();
        let words: Vec<&str> = line.split(' ').collect();
        let number = |i: usize| f64::from_bits(u64::from_str_radix(words[i], 16).expect("sixteen hexadecimal digits"));
        let t = match words[0] {
            "atan2" => unsafe { watered_atan2(number(1), number(2)) },
            "acos" => unsafe { watered_acos(number(1)) },
            "asin" => unsafe { watered_asin(number(1)) },
            other => panic!("no such function: {other}"),
        };
        writeln!(out, "{:016X}", t.to_bits()).unwrap();
    }
}

fn machine(count: u64) {
    let mut state = 0x9E37_79B9_7F4A_7C15u64;
    let mut unit = || {
        state = state.wrapping_mul(6364136223846793005).wrapping_add(1442695040888963407);
        (state >> 11) as f64 / (1u64 << 53) as f64 * 2.0 - 1.0
    };
    let mut worst = 0.0f64;
    for i in 0..count {
        // evenly over the square of plans, and every second pair over a wide range of slopes
        let scale = if i % 2 == 0 { 80000.0 } else { (unit() * 40.0).exp2() };
        let (y, x) = (unit() * scale.min(1048576.0), unit() * 80000.0);
        let c = unit();
        let (t, p, q) = unsafe { (watered_atan2(y, x), watered_acos(c), watered_asin(c)) };
        for off in [t - y.atan2(x), p - c.acos(), q - c.asin()] {
            if !(off.abs() <= worst) {
                worst = off.abs();
            }
        }
    }
    println!("{count} arguments beside the machine's atan2, acos and asin: farthest {worst:e} apart");
    if !(worst <= BOUND) {
        std::process::exit(1);
    }
}

fn main() {
    let words: Vec<String> = std::env::args().collect();
    match words[1].as_str() {
        "answers" => answers(),
        "machine" => machine(words[2].parse().expect("how many arguments")),
        other => panic!("no such run: {other}"),
    }
}
