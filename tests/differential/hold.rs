// Holds a table in lent slices against the Rust's maps by mask: present rows, absent ones, and what stands beyond them.

use crate::case::{Rows, Slopes};
use crate::tally::Tally;

pub const FUNCTIONS: [&str; 3] = ["presence bytes", "absent rows", "rows beyond, as they were"];

type Input<'a> = &'a dyn Fn() -> String;

// The presence bytes of `count` rows.
pub fn bytes(tally: &mut Tally, ours: &[u8], before: &[u8], rust: &Rows, count: usize, input: Input) {
    let whole = |l: &[u8]| l.iter().map(|b| *b as u64).collect::<Vec<u64>>();
    let theirs: Vec<u64> = (0..count).map(|mask| rust.contains_key(&mask) as u64).collect();
    tally.wholes("presence bytes", &whole(&ours[..count]), &theirs, input);
    tally.wholes("rows beyond, as they were", &whole(&ours[count..]), &whole(&before[count..]), input);
}

// The numbers of `count` rows, `width` to a row, and what was there beyond them.
fn rows<'a>(
    tally: &mut Tally, ours: &'a [f64], before: &[f64], present: impl Fn(usize) -> bool, (count, width): (usize, usize), input: Input,
) -> Vec<&'a [f64]> {
    let row = |mask: usize| &ours[mask * width..(mask + 1) * width];
    let absent: Vec<f64> = (0..count).filter(|mask| !present(*mask)).flat_map(|mask| row(mask).to_vec()).collect();
    tally.floats("absent rows", &absent, &vec![0.0; absent.len()], input);
    tally.floats("rows beyond, as they were", &ours[count * width..], &before[count * width..], input);
    (0..count).map(row).collect()
}

// Areas: clamped ones as Tally::clamped says.
pub fn numbers(
    tally: &mut Tally, function: &'static str, clamped: bool, ours: &[f64], before: &[f64], rust: &Rows, count: usize, input: Input,
) {
    let all = rows(tally, ours, before, |mask| rust.contains_key(&mask), (count, 1), input);
    let masks = || (0..count).filter(|mask| rust.contains_key(mask));
    let own: Vec<f64> = masks().map(|mask| all[mask][0]).collect();
    let theirs: Vec<f64> = masks().map(|mask| rust[&mask]).collect();
    if clamped {
        tally.clamped(function, &own, &theirs, input);
    } else {
        tally.floats(function, &own, &theirs, input);
    }
}

// Gradients, `width` numbers a row.
pub fn gradients(
    tally: &mut Tally, function: &'static str, ours: &[f64], before: &[f64], rust: &Slopes, (count, width): (usize, usize), input: Input,
) {
    let all = rows(tally, ours, before, |mask| rust.contains_key(&mask), (count, width), input);
    for mask in (0..count).filter(|mask| rust.contains_key(mask)) {
        tally.floats(function, all[mask], &rust[&mask], input);
    }
}
