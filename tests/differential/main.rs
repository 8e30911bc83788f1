// The differential run: the Rust's files as modules of this program, and our functions beside them.
// `differential COUNT SEED PLANS` compares on about COUNT ordered pairs of circles and about PLANS plans; `differential list ..`
// prints the Rust's answers for so many. What is compared stands in files of its own (pairs.rs, outlines.rs, sets.rs, regions.rs, twins.rs,
// left_out.rs), with the exports of crate `probe` that it calls.

include!("modules.rs");

mod case;
#[allow(dead_code)]
mod closed;
mod hold;
mod inputs;
mod left_out;
mod ours;
mod outlines;
mod pairs;
mod plans;
mod regions;
mod sets;
mod tally;
mod twins;
mod whole;

fn main() {
    let words: Vec<String> = std::env::args().skip(1).collect();
    let list = words[0] == "list";
    let number = |i: usize| words.get(i + list as usize).and_then(|w| w.parse().ok()).expect("a count, a seed and a count");
    let (count, seed, plans) = (number(0), number(1), number(2));
    if list {
        pairs::list(count, seed);
        outlines::list(plans, seed);
        return;
    }
    whole::answers();
    let mut tally = tally::Tally::new(
        &[
            pairs::FUNCTIONS.as_slice(),
            outlines::FUNCTIONS.as_slice(),
            sets::FUNCTIONS.as_slice(),
            regions::FUNCTIONS.as_slice(),
            hold::FUNCTIONS.as_slice(),
            twins::FUNCTIONS.as_slice(),
            left_out::FUNCTIONS.as_slice(),
        ]
        .concat(),
    );
    println!("seed {seed}");
    pairs::compare(count, seed, &mut tally);
    outlines::compare(plans, seed, &mut tally);
    left_out::compare(plans, seed, &mut tally);
    tally.end();
}
