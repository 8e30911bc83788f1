// Whole tables through the C interface. `tables tables PLANS SEED` holds those of plans against the Rust's; `tables edits LISTS SEED` runs
// lists of edits against the rule of document 01, with the sets that the Rust finds; `tables list 0 SEED` prints the stored list.

include!("modules.rs");

#[allow(dead_code)]
mod case;
#[allow(dead_code)]
mod closed;
mod edits;
mod hold;
#[allow(dead_code)]
mod inputs;
mod lent;
mod list;
mod ours;
mod plans;
mod tables;
#[allow(dead_code)]
mod tally;

fn main() {
    let words: Vec<String> = std::env::args().skip(1).collect();
    let number = |i: usize| words.get(i).and_then(|w| w.parse().ok()).expect("tables or edits, a count and a seed");
    match words[0].as_str() {
        "tables" => tables::compare(number(1), number(2)),
        "edits" => edits::compare(number(1), number(2)),
        "list" => list::print(number(2)),
        other => panic!("neither tables nor edits nor list: {other}"),
    }
}
