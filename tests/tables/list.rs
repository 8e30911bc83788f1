// The stored list of crate `replay_tables`, whose file tables.rt says how a line reads: the Rust's answers for whole plans, of 0 to 10 heads;
// with identical heads those of its functions given the meeting points that document 01 leaves. Only the exclusives of to_exclusive_areas have
// +0 for -0.

use crate::case::{overlap, words, Case, Rows, Slopes};
use crate::geometry::diagram::to_exclusive_areas;
use crate::inputs::Random;
use crate::lent::Book;
use crate::plans::{Category, Plan, CATEGORIES, TWINS};

fn table(letter: char, rows: &Rows) {
    let exclusives = to_exclusive_areas(rows);
    let mut masks: Vec<usize> = rows.keys().copied().collect();
    masks.sort_unstable();
    for mask in masks {
        let area = exclusives[&mask];
        println!("{letter} {mask:X}{}", words(&[rows[&mask], if area == 0.0 { 0.0 } else { area }]));
    }
}

// Of at most 20 rows all; of more some 14, and row 0 where it is there. Zeros are short: the list is mostly these.
fn slopes(letter: char, (areas, gradients): (Rows, Slopes), random: &mut Random) {
    let mut masks: Vec<usize> = areas.keys().copied().collect();
    masks.sort_unstable();
    masks.retain(|mask| areas.len() <= 20 || random.whole(0, areas.len() as i64 - 1) < 14 || *mask == 0);
    for mask in masks {
        let entries: String = gradients[&mask].iter().map(|x| format!(" {:X}", x.to_bits())).collect();
        println!("{letter} {mask:X}{}{entries}", words(&[areas[&mask]]));
    }
}

// The overlap of all heads, and of some masks, sets or not: of at most four heads all.
fn overlaps(case: &Case, random: &mut Random) {
    println!("O{}", words(&[overlap(&case.heads, &case.circles)]));
    for mask in case.masks(random) {
        println!("M {mask:X}{}", words(&[case.overlap_of(mask)]));
    }
}

fn plan(book: &Book, random: &mut Random) {
    let case = Case::of_any(book.plan());
    let numbers: Vec<i32> = [&book.sides[..], &book.heads[..3 * book.n]].concat();
    println!("H {:X}{}", book.n, numbers.iter().map(|v| format!(" {:X}", *v as u32)).collect::<String>());
    let mut sets = [0u64; 16];
    for mask in case.found() {
        sets[mask / 64] |= 1 << (mask % 64);
    }
    println!("D{}", sets.map(|w| format!(" {w:X}")).concat());
    table('R', &case.rows_in_the_box());
    table('U', &case.open_rows());
    slopes('G', case.slopes_in_the_box(), random);
    slopes('F', case.open_slopes(), random);
    overlaps(&case, random);
}

// A plan of the category with the number of heads wanted; fewer where none comes soon.
fn of_heads(category: &Category, number: usize, random: &mut Random) -> Plan {
    let mut plan = (category.plan)(random);
    for _ in 0..60 {
        if plan.heads.len() < number {
            plan = (category.plan)(random);
        }
    }
    plan.heads.truncate(number);
    plan
}

// For each category of the domain, with identical heads or without, plans of few heads, and one or two of more.
pub fn print(seed: u64) {
    for (i, category) in CATEGORIES.iter().chain(&TWINS).enumerate() {
        let (mut random, mut chosen) = (Random::of(seed, 900 + i), Random::of(seed, 1000 + i));
        for turn in 0..6 {
            let number = match turn {
                0 => i % 11,
                1 => [10, 8, 9, 7, 6][i % 5],
                turn => turn,
            };
            let made = of_heads(category, number, &mut random);
            if let Some(book) = Book::of(&made, &mut random) {
                plan(&book, &mut chosen);
            }
        }
    }
}
