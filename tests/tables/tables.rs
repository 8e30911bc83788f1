// The tables of whole plans through the C interface against the Rust's: sets as presence bytes, rows, exclusives, gradients and overlap, in the
// box and open. Of plans with closed heads the Rust gets the others, and its answers are spread to their places.

use crate::case::{input, overlap, Case, Rows, Slopes};
use crate::closed::{self, left_out, Spread, Stand};
use crate::hold;
use crate::inputs::Random;
use crate::lent::{Book, Gradients, Tables};
use crate::plans::{Category, CATEGORIES, TWINS};
use crate::tally::Tally;

const FUNCTIONS: [&str; 14] = [
    "answers",
    "afresh, rows",
    "compute_exclusive_regions_clipped",
    "open afresh, rows",
    "compute_exclusive_regions",
    "compute_exclusive_regions_clipped_with_gradient, areas",
    "compute_exclusive_regions_clipped_with_gradient, gradients",
    "compute_exclusive_regions_with_gradient_circles, areas",
    "compute_exclusive_regions_with_gradient_circles, gradients",
    "compute_overlaps_circles",
    "rows of closed heads: bytes",
    "rows of closed heads: numbers",
    "gradient entries of closed heads",
    "compute_overlaps_circles of no circles: every head is closed",
];

// A plan through the C interface, and what the Rust is asked: the plan's heads that are not closed, spread to their places.
struct Held<'a> {
    book: &'a Book,
    case: Case,
    spread: Spread,
}

impl Held<'_> {
    fn of(book: &Book) -> Held<'_> {
        let plan = book.plan();
        Held { book, spread: Spread::over(&plan.heads), case: Case::of_any(left_out(&plan)) }
    }

    fn input(&self) -> String {
        let plan = self.book.plan();
        input(&plan.heads, plan.sides)
    }

    // The masks with a closed head, and whether entry k of a gradient is of one.
    fn closed_rows(&self) -> impl Iterator<Item = usize> {
        let closed = self.spread.closed();
        (0..self.book.rows()).filter(move |mask| mask & closed != 0)
    }

    fn is_closed_entry(&self, k: usize) -> bool {
        self.spread.closed() >> (k / 3) & 1 == 1
    }
}

// Looked at by themselves, though each is among what is compared with the Rust's: the rows that name a closed head.
fn closed_rows(tally: &mut Tally, held: &Held, presence: &[u8], areas: &[f64]) {
    let bytes: Vec<u64> = held.closed_rows().map(|mask| presence[mask] as u64).collect();
    let numbers: Vec<f64> = held.closed_rows().map(|mask| areas[mask]).collect();
    tally.wholes("rows of closed heads: bytes", &bytes, &vec![0; bytes.len()], || held.input());
    tally.floats("rows of closed heads: numbers", &numbers, &vec![0.0; numbers.len()], || held.input());
}

struct Call {
    made: fn(&mut Tables, &Book) -> u32,
    rows: (&'static str, Rows),
    exclusives: (&'static str, Rows),
}

fn tables(tally: &mut Tally, held: &Held, random: &mut Random) {
    let (count, case, spread, input) = (held.book.rows(), &held.case, &held.spread, || held.input());
    let boxed = Call {
        made: Tables::afresh,
        rows: ("afresh, rows", spread.rows(case.rows_in_the_box())),
        exclusives: ("compute_exclusive_regions_clipped", spread.rows(case.exclusives_in_the_box())),
    };
    let open = Call {
        made: Tables::open_afresh,
        rows: ("open afresh, rows", spread.rows(case.open_rows())),
        exclusives: ("compute_exclusive_regions", spread.rows(case.open_exclusives())),
    };
    for call in [boxed, open] {
        let before = Tables::of(count, random);
        let mut after = before.clone();
        tally.whole("answers", (call.made)(&mut after, held.book) as u64, 0, input);
        let (rows, exclusives) = (&call.rows.1, &call.exclusives.1);
        hold::bytes(tally, &after.presence, &before.presence, rows, count, &input);
        hold::bytes(tally, &after.exclusive_presence, &before.exclusive_presence, rows, count, &input);
        hold::numbers(tally, call.rows.0, false, &after.rows, &before.rows, rows, count, &input);
        hold::numbers(tally, call.exclusives.0, true, &after.exclusives, &before.exclusives, exclusives, count, &input);
        closed_rows(tally, held, &after.presence, &after.rows);
        closed_rows(tally, held, &after.exclusive_presence, &after.exclusives);
        tally.things("rows", rows.len());
    }
}

struct Slope {
    made: fn(&mut Gradients, &Book) -> u32,
    width: usize,
    names: [&'static str; 2],
    theirs: (Rows, Slopes),
}

fn gradients(tally: &mut Tally, held: &Held, random: &mut Random) {
    let (n, count, case, spread, input) = (held.book.n, held.book.rows(), &held.case, &held.spread, || held.input());
    let boxed = Slope {
        made: Gradients::boxed,
        width: 3 * n + 4,
        names: ["compute_exclusive_regions_clipped_with_gradient, areas", "compute_exclusive_regions_clipped_with_gradient, gradients"],
        theirs: spread.slopes(case.slopes_in_the_box()),
    };
    let open = Slope {
        made: Gradients::open,
        width: 3 * n,
        names: ["compute_exclusive_regions_with_gradient_circles, areas", "compute_exclusive_regions_with_gradient_circles, gradients"],
        theirs: spread.slopes(case.open_slopes()),
    };
    for call in [boxed, open] {
        let before = Gradients::of(count, count * call.width, random);
        let mut after = before.clone();
        tally.whole("answers", (call.made)(&mut after, held.book) as u64, 0, input);
        let (areas, slopes) = &call.theirs;
        hold::bytes(tally, &after.presence, &before.presence, areas, count, &input);
        hold::numbers(tally, call.names[0], false, &after.exclusives, &before.exclusives, areas, count, &input);
        hold::gradients(tally, call.names[1], &after.gradients, &before.gradients, slopes, (count, call.width), &input);
        closed_rows(tally, held, &after.presence, &after.exclusives);
        let of_closed = |(i, _): &(usize, &f64)| held.is_closed_entry(i % call.width);
        let written = after.gradients[..count * call.width].iter().enumerate();
        let entries: Vec<f64> = written.filter(of_closed).map(|(_, entry)| *entry).collect();
        tally.floats("gradient entries of closed heads", &entries, &vec![0.0; entries.len()], input);
    }
}

fn plan(tally: &mut Tally, held: &Held, random: &mut Random) {
    tally.input();
    tables(tally, held, random);
    gradients(tally, held, random);
    let (answer, ours) = held.book.overlap();
    tally.whole("answers", answer as u64, 0, || held.input());
    let theirs = overlap(&held.case.heads, &held.case.circles);
    tally.float("compute_overlaps_circles", ours, theirs, || held.input());
    if held.book.n > 0 && held.case.n == 0 {
        tally.float("compute_overlaps_circles of no circles: every head is closed", ours, theirs, || held.input());
    }
}

fn categories(tally: &mut Tally, all: &'static [Category], count: u64, seed: u64, twins: bool) {
    for (i, category) in all.iter().enumerate() {
        let at = if twins { 600 + i } else { 500 + i };
        let (mut random, mut other) = (Random::of(seed, at), Random::of(seed, at + 200));
        tally.begin(category.name, if twins { "plans with identical heads" } else { "plans" });
        for _ in 0..(count * category.share / 100).max(1) {
            let made = (category.plan)(&mut random);
            // plans out of the domain are those of tests/differential
            if let Some(book) = Book::of(&made, &mut other) {
                plan(tally, &Held::of(&book), &mut other);
            }
        }
        tally.close();
    }
}

// Plans of 0 to 10 heads, of each number with 0 to all of them closed.
fn closed(tally: &mut Tally, count: u64, seed: u64) {
    let (mut random, mut stand) = (Random::of(seed, 900), Stand::default());
    tally.begin("0 to 10 heads, 0 to all of them closed", "plans for closed heads");
    for n in 0..=10 {
        for closed in 0..=n {
            for _ in 0..(count / 200).max(1) {
                let made = closed::plan(n, closed, true, &mut random);
                let book = Book::of(&made, &mut random).expect("whole numbers");
                let held = Held::of(&book);
                assert_eq!((held.case.n, held.book.n), (n - closed, n));
                stand.count(&made);
                plan(tally, &held, &mut random);
            }
        }
    }
    tally.close();
    stand.print();
}

pub fn compare(count: u64, seed: u64) {
    let mut tally = Tally::new(&[FUNCTIONS.as_slice(), hold::FUNCTIONS.as_slice()].concat());
    println!("seed {seed}");
    categories(&mut tally, &CATEGORIES, count, seed, false);
    categories(&mut tally, &TWINS, count, seed, true);
    closed(&mut tally, count, seed);
    tally.end();
}
