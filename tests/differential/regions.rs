// The Rust's functions of whole diagrams, by their names: compute_exclusive_regions, the clipped form, and both with gradients; and
// to_exclusive_areas_and_gradients over any tables.

use crate::case::{Case, OurCircles, Rows, Slopes};
use crate::closed::Given;
use crate::geometry::diagram::to_exclusive_areas_and_gradients;
use crate::hold;
use crate::inputs::Random;
use crate::tally::Tally;

extern "C" {
    fn probe_compute_exclusive_regions(
        circles: OurCircles, n: usize, presence: *mut u8, presence_count: usize, exclusives: *mut f64, exclusives_count: usize,
    ) -> u8;
    fn probe_compute_exclusive_regions_clipped(
        circles: OurCircles, n: usize, x: f64, y: f64, width: f64, height: f64, presence: *mut u8, presence_count: usize, exclusives: *mut f64,
        exclusives_count: usize,
    ) -> u8;
    fn probe_compute_exclusive_regions_with_gradient_circles(
        circles: OurCircles, n: usize, presence: *mut u8, presence_count: usize, exclusives: *mut f64, exclusives_count: usize,
        gradients: *mut f64, gradients_count: usize,
    ) -> u8;
    fn probe_compute_exclusive_regions_clipped_with_gradient(
        circles: OurCircles, n: usize, x: f64, y: f64, width: f64, height: f64, presence: *mut u8, presence_count: usize, exclusives: *mut f64,
        exclusives_count: usize, gradients: *mut f64, gradients_count: usize,
    ) -> u8;
    fn probe_to_exclusive_areas_and_gradients(
        present: *const u8, present_count: usize, areas: *mut f64, areas_count: usize, gradients: *mut f64, gradients_count: usize, n: usize,
        width: usize,
    ) -> u8;
}

pub const FUNCTIONS: [&str; 9] = [
    "diagrams, answers",
    "compute_exclusive_regions",
    "compute_exclusive_regions_clipped",
    "compute_exclusive_regions_with_gradient_circles, areas",
    "compute_exclusive_regions_with_gradient_circles, gradients",
    "compute_exclusive_regions_clipped_with_gradient, areas",
    "compute_exclusive_regions_clipped_with_gradient, gradients",
    "to_exclusive_areas_and_gradients, areas",
    "to_exclusive_areas_and_gradients, gradients",
];

// What stands in lent slices before a call.
struct Lent {
    presence: Vec<u8>,
    exclusives: Vec<f64>,
    gradients: Vec<f64>,
}

impl Lent {
    fn of(rows: usize, numbers: usize, random: &mut Random) -> Self {
        let mut more = |n: usize| n + random.whole(0, 3) as usize;
        Lent { presence: vec![7; more(rows)], exclusives: vec![-7.5; more(rows)], gradients: vec![-7.5; more(numbers)] }
    }
}

fn without_gradients(tally: &mut Tally, case: &Case, given: &Given, boxed: bool, random: &mut Random) {
    let (count, input, s) = (1 << given.n, || given.input.clone(), case.sides);
    let before = Lent::of(count, 0, random);
    let (mut p, mut e) = (before.presence.clone(), before.exclusives.clone());
    let (pp, pn, ep, en) = (p.as_mut_ptr(), p.len(), e.as_mut_ptr(), e.len());
    let (answer, name, theirs) = if boxed {
        let answer = unsafe { probe_compute_exclusive_regions_clipped(given.ours, given.n, s.x, s.y, s.width, s.height, pp, pn, ep, en) };
        (answer, "compute_exclusive_regions_clipped", given.spread.rows(case.exclusives_in_the_box()))
    } else {
        let answer = unsafe { probe_compute_exclusive_regions(given.ours, given.n, pp, pn, ep, en) };
        (answer, "compute_exclusive_regions", given.spread.rows(case.open_exclusives()))
    };
    tally.whole("diagrams, answers", answer as u64, 0, input);
    hold::bytes(tally, &p, &before.presence, &theirs, count, &input);
    hold::numbers(tally, name, true, &e, &before.exclusives, &theirs, count, &input);
}

fn with_gradients(tally: &mut Tally, case: &Case, given: &Given, boxed: bool, random: &mut Random) {
    let (count, input, s) = (1 << given.n, || given.input.clone(), case.sides);
    let width = 3 * given.n + if boxed { 4 } else { 0 };
    let before = Lent::of(count, count * width, random);
    let (mut p, mut e, mut g) = (before.presence.clone(), before.exclusives.clone(), before.gradients.clone());
    let (pp, pn, ep, en, gp, gn) = (p.as_mut_ptr(), p.len(), e.as_mut_ptr(), e.len(), g.as_mut_ptr(), g.len());
    let (answer, names, theirs) = if boxed {
        (
            unsafe {
                probe_compute_exclusive_regions_clipped_with_gradient(
                    given.ours, given.n, s.x, s.y, s.width, s.height, pp, pn, ep, en, gp, gn,
                )
            },
            ["compute_exclusive_regions_clipped_with_gradient, areas", "compute_exclusive_regions_clipped_with_gradient, gradients"],
            given.spread.slopes(case.slopes_in_the_box()),
        )
    } else {
        (
            unsafe { probe_compute_exclusive_regions_with_gradient_circles(given.ours, given.n, pp, pn, ep, en, gp, gn) },
            ["compute_exclusive_regions_with_gradient_circles, areas", "compute_exclusive_regions_with_gradient_circles, gradients"],
            given.spread.slopes(case.open_slopes()),
        )
    };
    tally.whole("diagrams, answers", answer as u64, 0, input);
    hold::bytes(tally, &p, &before.presence, &theirs.0, count, &input);
    hold::numbers(tally, names[0], false, &e, &before.exclusives, &theirs.0, count, &input);
    hold::gradients(tally, names[1], &g, &before.gradients, &theirs.1, (count, width), &input);
}

// Any rows with any gradients, `width` numbers each, in place.
pub fn any_tables(tally: &mut Tally, n: usize, areas: &Rows, random: &mut Random) {
    let (count, width) = (1 << n, random.whole(0, 5) as usize);
    let mut number = || match random.whole(0, 30) {
        0 => [f64::NAN, f64::INFINITY, -0.0, 0.0][(random.next() % 4) as usize],
        _ => random.whole(-1000, 1000) as f64 / 7.0,
    };
    // by mask, so that the same seed gives the same numbers
    let slopes: Slopes = (0..count).filter(|mask| areas.contains_key(mask)).map(|mask| (mask, (0..width).map(|_| number()).collect())).collect();
    let before = Lent::of(count, count * width, random);
    let present: Vec<u8> = (0..count + 1).map(|mask| areas.contains_key(&mask) as u8).collect();
    let (mut e, mut g) = (before.exclusives.clone(), before.gradients.clone());
    for (mask, area) in areas {
        e[*mask] = *area;
        g[mask * width..(mask + 1) * width].copy_from_slice(&slopes[mask]);
    }
    let answer = unsafe {
        probe_to_exclusive_areas_and_gradients(present.as_ptr(), present.len(), e.as_mut_ptr(), e.len(), g.as_mut_ptr(), g.len(), n, width)
    };
    let input = || format!("heads {n:016X}, areas {areas:?}, gradients {slopes:?}");
    let theirs = to_exclusive_areas_and_gradients(areas, &slopes, width);
    tally.whole("diagrams, answers", answer as u64, 0, input);
    hold::numbers(tally, "to_exclusive_areas_and_gradients, areas", false, &e, &before.exclusives, &theirs.0, count, &input);
    hold::gradients(tally, "to_exclusive_areas_and_gradients, gradients", &g, &before.gradients, &theirs.1, (count, width), &input);
}

pub fn compare(tally: &mut Tally, case: &Case, given: &Given, random: &mut Random) {
    for boxed in [true, false] {
        without_gradients(tally, case, given, boxed, random);
        with_gradients(tally, case, given, boxed, random);
    }
}
