// Closed circles: beside one other, and in whole plans, where the Rust gets the others and its answers are spread to their places.

use crate::case::Case;
use crate::closed::{self, left_out, Given, Spread, Stand};
use crate::inputs::{Head, Random, CATEGORIES};
use crate::plans::Plan;
use crate::tally::Tally;
use crate::{outlines, pairs, regions, sets};

pub const FUNCTIONS: [&str; 5] = [
    "closed circles: contains",
    "closed circles: intersection_points, how many",
    "closed circles: contains_point",
    "circles of radius 0: area, intersection_area",
    "circles of radius 0: intersects",
];

// tests/differential/faults says false for its faults of guards: then the Rust gets all heads, and has guards put into it.
const LEFT_OUT: bool = true;

// The Rust's side of a plan, and where its heads stand among all.
fn theirs(plan: &Plan) -> (Case, Spread) {
    if LEFT_OUT {
        return (Case::of_any(left_out(plan)), Spread::over(&plan.heads));
    }
    (Case::of_any(Plan { heads: plan.heads.clone(), sides: plan.sides }), Spread::none(plan.heads.len()))
}

// A circle that is closed, at a centre, on an edge, on a common point or anywhere: of radius 0, or of another that is not above 0.
fn beside(a: Head, b: Head, random: &mut Random) -> Head {
    const RADII: [f64; 8] = [0.0, 0.0, 0.0, 0.0, -0.0, -1.0, f64::NEG_INFINITY, f64::NAN];
    let points = pairs::common_points(a, b);
    let (x, y) = match random.whole(0, 3) {
        0 => (a.x, a.y),
        1 => (a.x + a.r, a.y),
        2 if !points.is_empty() => points[(random.next() % points.len() as u64) as usize],
        _ => (random.whole(-20000, 20000) as f64, random.whole(-20000, 20000) as f64),
    };
    let r = RADII[(random.next() % 8) as usize];
    Head { x, y, r }
}

pub fn compare(count: u64, seed: u64, tally: &mut Tally) {
    let mut random = Random::of(seed, 900);
    tally.begin("a closed circle beside another", "pairs");
    for category in &CATEGORIES {
        for _ in 0..count {
            let (a, b) = (category.pair)(&mut random);
            tally.input();
            pairs::closed(tally, beside(a, b, &mut random), a, b);
        }
    }
    tally.close();
    let (mut random, mut stand) = (Random::of(seed, 901), Stand::default());
    tally.begin("0 to 10 heads, 0 to all of them closed", "plans with closed heads left out");
    for n in 0..=10 {
        for closed in 0..=n {
            for turn in 0..(count / 400).max(1) {
                let plan = closed::plan(n, closed, turn % 2 == 0, &mut random);
                stand.count(&plan);
                let (case, spread) = theirs(&plan);
                let given = Given::over(&plan, spread);
                tally.input();
                outlines::points(tally, &case, &given);
                sets::sets(tally, &case, &given);
                sets::of_all(tally, &case, &given);
                let masks: Vec<usize> = (0..8).map(|_| random.next() as usize % (1 << n)).collect();
                sets::of_masks(tally, &case, &given, &masks);
                regions::compare(tally, &case, &given, &mut random);
            }
        }
    }
    tally.close();
    stand.print();
}
