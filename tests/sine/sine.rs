// `sine answers`: for each line of standard input, the bits of an angle, prints the bits of our sine and cosine.
// `sine machine COUNT`: compares ours with the machine's on random angles of the domain.
use std::io::{BufRead, Write};

extern "C" {
    fn watered_sin(v: f64) -> f64;
    fn watered_cos(v: f64) -> f64;
}

// Ours is promised within 2^-40 of the 40-term sums; what is seen is far nearer, and this is the bound that the run holds it to.
const BOUND: f64 = 1.0 / (1u64 << 50) as f64;

fn answers() {
    let mut out = std::io::BufWriter::new(std::io::stdout());
    for line in std::io::stdin().lock().lines() {
        let v = f64::from_bits(u64::from_str_radix(&line.unwrap(), 16).expect("sixteen hexadecimal digits"));
        let (s, c) = unsafe { (watered_sin(v), watered_cos(v)) };
        writeln!(out, "{:016X} {:016X}", s.to_bits(), c.to_bits()).unwrap();
    }
}

fn machine(count: u64) {
    let mut state = 0x9E37_79B9_7F4A_7C15u64;
    let (mut worst, mut at) = (0.0f64, 0.0f64);
    for i in 0..count {
        state = state.wrapping_mul(6364136223846793005).wrapping_add(1442695040888963407);
        // evenly over the domain, and every second one evenly over the exponents
        let v = if i % 2 == 0 {
            (state >> 11) as f64 / (1u64 << 53) as f64 * 32.0 - 16.0
        } else {
            f64::from_bits(state >> 12 | (state >> 53) % 1027 << 52 | state & 1 << 63)
        };
        let (s, c) = unsafe { (watered_sin(v), watered_cos(v)) };
        let off = (s - v.sin()).abs().max((c - v.cos()).abs());
        if !(off <= worst) {
            (worst, at) = (off, v);
        }
    }
    println!("{count} angles beside the machine's sine and cosine: farthest {worst:e} apart, at {at:e}");
    if !(worst <= BOUND) {
        std::process::exit(1);
    }
}

fn main() {
    let words: Vec<String> = std::env::args().collect();
    match words[1].as_str() {
        "answers" => answers(),
        "machine" => machine(words[2].parse().expect("how many angles")),
        other => panic!("no such run: {other}"),
    }
}
