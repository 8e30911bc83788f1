// Times our functions and the machine's beside them, in one run. Each is timed chained (a call waits for the answer of the
// one before) and apart (calls that do not wait for each other); the best of five rounds counts. Both sides are called
// through a pointer that the compiler cannot see through, so that neither is inlined.
use std::hint::black_box;
use std::time::Instant;

extern "C" {
    fn watered_root(x: f64) -> f64;
    fn watered_hypot(a: f64, b: f64) -> f64;
    fn watered_sin(v: f64) -> f64;
    fn watered_cos(v: f64) -> f64;
    fn watered_atan2(y: f64, x: f64) -> f64;
    fn watered_acos(c: f64) -> f64;
    fn watered_asin(c: f64) -> f64;
}

extern "C" fn machine_root(x: f64) -> f64 {
    x.sqrt()
}

extern "C" fn machine_hypot(a: f64, b: f64) -> f64 {
    a.hypot(b)
}

extern "C" fn machine_sin(v: f64) -> f64 {
    v.sin()
}

extern "C" fn machine_cos(v: f64) -> f64 {
    v.cos()
}

extern "C" fn machine_atan2(y: f64, x: f64) -> f64 {
    y.atan2(x)
}

extern "C" fn machine_acos(c: f64) -> f64 {
    c.acos()
}

extern "C" fn machine_asin(c: f64) -> f64 {
    c.asin()
}

extern "C" fn ours_atan2(y: f64, x: f64) -> f64 {
    unsafe { watered_atan2(y, x) }
}

extern "C" fn ours_acos(c: f64) -> f64 {
    unsafe { watered_acos(c) }
}

extern "C" fn ours_asin(c: f64) -> f64 {
    unsafe { watered_asin(c) }
}

extern "C" fn ours_sin(v: f64) -> f64 {
    unsafe { watered_sin(v) }
}

extern "C" fn ours_cos(v: f64) -> f64 {
    unsafe { watered_cos(v) }
}

extern "C" fn ours_root(x: f64) -> f64 {
    unsafe { watered_root(x) }
}

extern "C" fn ours_hypot(a: f64, b: f64) -> f64 {
    unsafe { watered_hypot(a, b) }
}

// 4096 numbers evenly spread from low to high.
fn spread(low: f64, high: f64) -> Vec<f64> {
    let mut state = 0x9E37_79B9_7F4A_7C15u64;
    (0..4096)
        .map(|_| {
            state = state.wrapping_mul(6364136223846793005).wrapping_add(1442695040888963407);
            low + (high - low) * ((state >> 11) as f64 / (1u64 << 53) as f64)
        })
        .collect()
}

fn best(calls: u64, mut round: impl FnMut() -> f64) -> f64 {
    (0..5)
        .map(|_| {
            let start = Instant::now();
            black_box(round());
            start.elapsed().as_nanos() as f64 / calls as f64
        })
        .fold(f64::INFINITY, f64::min)
}

fn one(f: extern "C" fn(f64) -> f64, xs: &[f64], calls: u64) -> (f64, f64) {
    let f = black_box(f);
    let chained = best(calls, || {
        let mut last = 0.0;
        for i in 0..calls as usize {
            // the answer before, made zero, joins the next input
            last = f(xs[i % xs.len()] + last * 1e-300);
        }
        last
    });
    let apart = best(calls, || (0..calls as usize).map(|i| f(xs[i % xs.len()])).sum());
    (chained, apart)
}

fn two(f: extern "C" fn(f64, f64) -> f64, xs: &[f64], calls: u64) -> (f64, f64) {
    let f = black_box(f);
    let chained = best(calls, || {
        let mut last = 0.0;
        for i in 0..calls as usize {
            last = f(xs[i % xs.len()] + last * 1e-300, xs[(i + 7) % xs.len()]);
        }
        last
    });
    let apart = best(calls, || (0..calls as usize).map(|i| f(xs[i % xs.len()], xs[(i + 7) % xs.len()])).sum());
    (chained, apart)
}

fn show(name: &str, ours: (f64, f64), machine: (f64, f64)) {
    for (how, a, b) in [("chained", ours.0, machine.0), ("apart", ours.1, machine.1)] {
        println!("{name:<8} {how:<8} ours {a:7.2} ns   machine {b:7.2} ns   ratio {:5.2}", a / b);
    }
}

fn main() {
    let calls = 1_000_000 * std::env::args().nth(1).and_then(|a| a.parse::<u64>().ok()).expect("how many million calls");
    // squared distances, coordinate differences and angles of plans
    let squares = spread(0.0, 3.2e9);
    let differences = spread(-40000.0, 40000.0);
    let angles = spread(-7.0, 7.0);
    show("root", one(ours_root, &squares, calls), one(machine_root, &squares, calls));
    show("hypot", two(ours_hypot, &differences, calls), two(machine_hypot, &differences, calls));
    show("sin", one(ours_sin, &angles, calls), one(machine_sin, &angles, calls));
    show("cos", one(ours_cos, &angles, calls), one(machine_cos, &angles, calls));
    let ratios = spread(-1.0, 1.0);
    show("atan2", two(ours_atan2, &differences, calls), two(machine_atan2, &differences, calls));
    show("acos", one(ours_acos, &ratios, calls), one(machine_acos, &ratios, calls));
    show("asin", one(ours_asin, &ratios, calls), one(machine_asin, &ratios, calls));
}
