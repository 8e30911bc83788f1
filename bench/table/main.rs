// Whole tables, with gradients and without, in the box and open, and edits: ours through the C interface beside the Rust over the machine's
// functions and the Rust over ours. The three take turns, plan by plan; of each the least time of the repetitions counts.

mod lent;
mod plans;

use lent::Lent;
use plans::{a_move, dense, met, mixed, random, Kind, Move, Plan, Random, KINDS, SIDES};
use std::hint::black_box;
use std::time::Instant;

const PLANS: usize = 8;

// One plan for the three.
struct Beside {
    lent: Lent,
    libm: over_libm::Plan,
    ours: over_ours::Plan,
}

impl Beside {
    fn of(plan: &Plan) -> Beside {
        let heads: Vec<[f64; 3]> = plan.heads.iter().map(|h| h.map(f64::from)).collect();
        let sides = SIDES.map(f64::from);
        Beside { lent: Lent::of(plan), libm: over_libm::Plan::of(sides, &heads), ours: over_ours::Plan::of(sides, &heads) }
    }
}

type Call = fn(&mut Beside) -> usize;

// The time that this thread has had on a core, in microseconds: other work on the machine does not count.
fn spent() -> f64 {
    #[repr(C)]
    struct Time {
        seconds: i64,
        nanoseconds: i64,
    }
    extern "C" {
        fn clock_gettime(clock: i32, time: *mut Time) -> i32;
    }
    const THREAD: i32 = 3;
    let mut time = Time { seconds: 0, nanoseconds: 0 };
    assert_eq!(unsafe { clock_gettime(THREAD, &mut time) }, 0, "no clock of the thread");
    time.seconds as f64 * 1e6 + time.nanoseconds as f64 / 1e3
}

// The least time of each call, in turn, over all plans; the sums over the plans, in microseconds for one plan.
fn times<const N: usize>(seconds: f64, all: &mut [Beside], calls: [Call; N]) -> [f64; N] {
    let mut least = vec![[f64::MAX; N]; all.len()];
    let began = Instant::now();
    let mut rounds = 0;
    while rounds < 3 || began.elapsed().as_secs_f64() < seconds {
        for (one, least) in all.iter_mut().zip(&mut least) {
            for (call, least) in calls.iter().zip(least.iter_mut()) {
                let at = spent();
                black_box(call(black_box(one)));
                *least = least.min(spent() - at);
            }
        }
        rounds += 1;
    }
    let mut sums = [0.0; N];
    for one in least {
        for (sum, least) in sums.iter_mut().zip(one) {
            *sum += least / all.len() as f64;
        }
    }
    sums
}

fn line(name: &str, rows: usize, [ours, libm, over]: [f64; 3]) {
    println!("{name:<14}{rows:>6}{ours:>11.2}{libm:>11.1}{over:>11.1}{:>9.2}{:>9.2}", ours / libm, ours / over);
}

fn head(title: &str) {
    println!("\n{title}");
    println!("{:<14}{:>6}{:>11}{:>11}{:>11}{:>9}{:>9}", "", "rows", "ours µs", "libm µs", "over ours", "to libm", "to ours");
}

fn some(kind: Kind, n: usize) -> Vec<Beside> {
    let mut random = Random::of(7);
    (0..PLANS).map(|_| Beside::of(&kind.1(n, &mut random))).collect()
}

// The rows that are there, of one plan on the average. Both sides must have the same.
fn rows(all: &mut [Beside]) -> usize {
    let mut sum = 0;
    for one in all.iter_mut() {
        let rows = one.lent.afresh();
        assert_eq!(rows, one.libm.afresh(), "the Rust has another number of rows");
        sum += rows;
    }
    sum / all.len()
}

fn kinds(seconds: f64, timed: impl Fn(&str) -> bool) {
    let calls: [(&str, [Call; 3]); 4] = [
        ("whole table in the box", [|b| b.lent.afresh(), |b| b.libm.afresh(), |b| b.ours.afresh()]),
        ("open", [|b| b.lent.open_afresh(), |b| b.libm.open_afresh(), |b| b.ours.open_afresh()]),
        ("with gradients in the box", [|b| b.lent.gradients(), |b| b.libm.gradients(), |b| b.ours.gradients()]),
        ("with gradients, open", [|b| b.lent.open_gradients(), |b| b.libm.open_gradients(), |b| b.ours.open_gradients()]),
    ];
    for (title, calls) in calls {
        head(&format!("{title}, 10 heads"));
        for kind in KINDS.into_iter().filter(|kind| timed(kind.0)) {
            let mut all = some(kind, 10);
            line(kind.0, rows(&mut all), times(seconds, &mut all, calls));
        }
    }
    if !timed("dense") {
        return;
    }
    head("whole table in the box, dense, by heads");
    for n in 1..=10 {
        let mut all = some(("dense", dense), n);
        line(&n.to_string(), rows(&mut all), times(seconds, &mut all, calls[0].1));
    }
}

// Edits there and back, beside our own afresh and the Rust's of the same plan.
fn edits(seconds: f64, timed: impl Fn(&str) -> bool) {
    println!("\nedits in the box, 10 heads, there and back");
    println!("{:<24}{:>5}{:>11}{:>11}{:>11}{:>10}{:>9}", "", "met", "edit µs", "afresh µs", "libm µs", "to afresh", "to libm");
    let cases: [(&str, fn(usize, &mut Random) -> Plan); 3] = [("dense", dense), ("mixed", mixed), ("random", random)];
    for (name, kind) in cases.into_iter().filter(|case| timed(case.0)) {
        for (what, least, most) in [("meets nobody", 0, 0), ("meets one or two", 1, 2), ("meets many", 4, 9)] {
            let mut random = Random::of(11);
            let moves: Vec<Move> = (0..PLANS).map(|_| a_move(kind, &mut random, least, most)).collect();
            let mut all: Vec<Beside> = moves
                .iter()
                .map(|edit| {
                    let mut one = Beside::of(&edit.plan);
                    one.lent.afresh();
                    one.lent.moves(edit.head, edit.there);
                    one
                })
                .collect();
            let calls: [Call; 3] = [|b| b.lent.there() + b.lent.back(), |b| b.lent.afresh_aside(), |b| b.libm.afresh()];
            let [both, afresh, libm] = times(seconds, &mut all, calls);
            let (edit, met) = (both / 2.0, moves.iter().map(met).sum::<usize>() as f64 / PLANS as f64);
            let name = format!("{name}, {what}");
            println!("{name:<24}{met:>5.1}{edit:>11.2}{afresh:>11.1}{libm:>11.1}{:>10.2}{:>9.2}", edit / afresh, edit / libm);
        }
    }
}

// SECONDS [KIND..]: for each line; the kinds of plans that are timed, all of them where none is named.
fn main() {
    let words: Vec<String> = std::env::args().skip(1).collect();
    let seconds: f64 = words.first().and_then(|w| w.parse().ok()).expect("seconds for each line");
    let timed = |kind: &str| words.len() == 1 || words[1..].iter().any(|w| w == kind);
    kinds(seconds, timed);
    edits(seconds, timed);
}
