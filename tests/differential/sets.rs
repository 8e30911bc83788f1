// What stands above the outlines of a plan: discover_regions, to_exclusive_areas, compute_overlaps_circles.

use crate::case::{overlap, Case, OurCircles, Rows};
use crate::closed::Given;
use crate::geometry::diagram::to_exclusive_areas;
use crate::inputs::Random;
use crate::regions;
use crate::tally::Tally;

#[repr(C)]
struct OurSets {
    bytes: [u8; 1024],
}

extern "C" {
    fn probe_sets(circles: OurCircles, n: usize) -> OurSets;
    fn probe_to_exclusive_areas(
        present: *const u8, present_count: usize, areas: *const f64, areas_count: usize, exclusives: *mut f64, exclusives_count: usize,
        n: usize,
    ) -> u8;
    fn probe_compute_overlaps_circles(circles: OurCircles, n: usize) -> f64;
    fn probe_compute_overlaps_of(circles: OurCircles, n: usize, mask: usize) -> f64;
}

pub const FUNCTIONS: [&str; 10] = [
    "discover_regions, every mask",
    "discover_regions, numbers that are no mask of the heads",
    "to_exclusive_areas of the areas in the box",
    "to_exclusive_areas of the open areas",
    "to_exclusive_areas of any sets with any numbers",
    "to_exclusive_areas, absent rows and rows beyond",
    "to_exclusive_areas, answers",
    "to_exclusive_areas, refused: the table as it was",
    "compute_overlaps_circles",
    "compute_overlaps_circles of the heads of a mask",
];

// Any masks of n heads with any numbers: those that cancel, that round, that are clamped, and a few that are not finite.
fn any_rows(n: usize, random: &mut Random) -> Rows {
    let (share, kind) = (random.whole(1, 8), random.whole(0, 3));
    let mut number = || match (kind, random.whole(0, 15)) {
        (0, _) => random.whole(-3, 3) as f64,
        (3, 0) => [f64::NAN, f64::INFINITY, f64::NEG_INFINITY, -0.0, f64::MAX][(random.next() % 5) as usize],
        (_, 1) => -0.0,
        (1, _) => random.whole(0, 1_000_000_000) as f64 / 7.0,
        _ => random.whole(-1000, 1000) as f64 / 3.0,
    };
    let numbers: Vec<f64> = (0..1usize << n).map(|_| number()).collect();
    numbers.into_iter().enumerate().filter(|_| random.whole(1, 8) <= share).collect()
}

pub fn sets(tally: &mut Tally, case: &Case, given: &Given) {
    let ours = unsafe { probe_sets(given.ours, given.n) }.bytes.map(u64::from);
    let found = case.found();
    let mut theirs = [0; 1024];
    for mask in &found {
        theirs[given.spread.mask(*mask)] = 1;
    }
    let (masks, input) = (1 << given.n, || given.input.clone());
    tally.wholes("discover_regions, every mask", &ours[..masks], &theirs[..masks], input);
    tally.wholes("discover_regions, numbers that are no mask of the heads", &ours[masks..], &theirs[masks..], input);
    tally.things("sets found", found.len());
}

// What stands in lent tables where nothing was written yet, and beyond their rows.
const LEFT: f64 = -7.5;

struct Tables {
    present: Vec<u8>,
    areas: Vec<f64>,
    exclusives: Vec<f64>,
}

impl Tables {
    // Our tables of `count` rows for the Rust's: a row is absent whose byte is not 1, whatever stands there.
    fn of(rows: &Rows, count: usize, random: &mut Random) -> Self {
        let absent = |random: &mut Random| [0, 0, 2, 255][(random.next() % 4) as usize];
        let present = (0..count).map(|mask| if rows.contains_key(&mask) { 1 } else { absent(random) }).collect();
        let areas = (0..count).map(|mask| *rows.get(&mask).unwrap_or(&LEFT)).collect();
        Tables { present, areas, exclusives: vec![LEFT; count] }
    }

    fn subtract(&mut self, n: usize) -> u8 {
        let (p, a, e) = (&self.present, &self.areas, &mut self.exclusives);
        unsafe { probe_to_exclusive_areas(p.as_ptr(), p.len(), a.as_ptr(), a.len(), e.as_mut_ptr(), e.len(), n) }
    }
}

fn exclusives(tally: &mut Tally, function: &'static str, case: &Case, rows: &Rows, random: &mut Random) {
    let masks = 1 << case.n;
    let mut tables = Tables::of(rows, masks + random.whole(0, 3) as usize, random);
    let answer = tables.subtract(case.n);
    let input = || format!("{}, rows {:?}, numbers {:?}", case.input(), tables.present, tables.areas);
    tally.whole("to_exclusive_areas, answers", answer as u64, 0, input);
    let theirs = to_exclusive_areas(rows);
    let (mut own, mut given, mut others, mut left) = (vec![], vec![], vec![], vec![]);
    for (mask, number) in tables.exclusives.iter().enumerate() {
        if let Some(area) = theirs.get(&mask) {
            own.push(*number);
            given.push(*area);
        } else {
            others.push(*number);
            left.push(if mask < masks { 0.0 } else { LEFT });
        }
    }
    tally.clamped(function, &own, &given, input);
    tally.floats("to_exclusive_areas, absent rows and rows beyond", &others, &left, input);
}

// Tables of too few rows, or for more than ten heads.
fn refused(tally: &mut Tally, case: &Case, rows: &Rows, random: &mut Random) {
    let masks = 1 << case.n;
    let too_many = random.whole(0, 3) == 0;
    let (n, want) = if too_many { (random.whole(11, 80) as usize, 2) } else { (case.n, 7) };
    let mut tables = Tables::of(rows, masks, random);
    if !too_many {
        let less = random.whole(0, masks as i64 - 1) as usize;
        match random.whole(0, 2) {
            0 => tables.present.truncate(less),
            1 => tables.areas.truncate(less),
            _ => tables.exclusives.truncate(less),
        }
    }
    let answer = tables.subtract(n);
    tally.whole("to_exclusive_areas, answers", answer as u64, want, || case.input());
    let as_it_was = vec![LEFT; tables.exclusives.len()];
    tally.floats("to_exclusive_areas, refused: the table as it was", &tables.exclusives, &as_it_was, || case.input());
}

pub fn of_all(tally: &mut Tally, case: &Case, given: &Given) {
    let ours = unsafe { probe_compute_overlaps_circles(given.ours, given.n) };
    tally.float("compute_overlaps_circles", ours, overlap(&case.heads, &case.circles), || given.input.clone());
}

// Of masks of the heads that are given.
pub fn of_masks(tally: &mut Tally, case: &Case, given: &Given, masks: &[usize]) {
    for &mask in masks {
        let ours = unsafe { probe_compute_overlaps_of(given.ours, given.n, mask) };
        let input = || format!("{}, set {mask:X}", given.input);
        tally.float("compute_overlaps_circles of the heads of a mask", ours, case.overlap_of(given.spread.back(mask)), input);
    }
}

pub fn compare(tally: &mut Tally, case: &Case, random: &mut Random) {
    let given = Given::same(case);
    sets(tally, case, &given);
    let (boxed, open, any) = (case.rows_in_the_box(), case.open_rows(), any_rows(case.n, random));
    exclusives(tally, "to_exclusive_areas of the areas in the box", case, &boxed, random);
    exclusives(tally, "to_exclusive_areas of the open areas", case, &open, random);
    exclusives(tally, "to_exclusive_areas of any sets with any numbers", case, &any, random);
    refused(tally, case, &any, random);
    regions::any_tables(tally, case.n, &any, random);
    regions::compare(tally, case, &given, random);
    let mut masks = case.masks(random);
    masks.truncate(16);
    of_all(tally, case, &given);
    of_masks(tally, case, &given, &masks);
}
