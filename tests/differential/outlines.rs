// The functions on whole plans: meeting points, the outline of a set as arcs, areas and gradients, open and in the box; then sets.rs.
// Ours get the box by the Rust's bounds of it. Our exports of lists give one value at a time.

use crate::case::{words, Case, OurBounds, OurCircles};
use crate::closed::Given;
use crate::geometry::diagram::{adopters_to_mask, mask_to_indices};
use crate::geometry::primitives::Bounds;
use crate::geometry::shapes::circle::{
    accumulate_region_overlap_gradient, area_and_gradient_from_clipped_arcs, area_from_boundary_arcs, area_from_clipped_arcs,
    clipped_arc_integral_with_gradient, horizontal_edge_inside_interval, vertical_edge_inside_interval, wrap_angle, BoundaryArc,
};
use crate::inputs::Random;
use crate::plans::{Category, Plan, CATEGORIES, TWINS};
use crate::sets;
use crate::tally::Tally;
use crate::twins;
use std::f64::consts::PI;

#[repr(C)]
struct OurPoint {
    x: f64,
    y: f64,
    first: usize,
    second: usize,
    adopters: usize,
}

#[repr(C)]
pub struct OurArc {
    pub head: usize,
    pub start: f64,
    pub end: f64,
    pub delta: f64,
}

#[repr(C)]
struct OurSpan {
    number: usize,
    low: f64,
    high: f64,
}

extern "C" {
    fn probe_wrap_angle(x: f64) -> f64;
    fn probe_number_of_points(circles: OurCircles, n: usize) -> usize;
    fn probe_point(circles: OurCircles, n: usize, k: usize) -> OurPoint;
    fn probe_number_of_arcs(circles: OurCircles, n: usize, mask: usize) -> usize;
    fn probe_arc(circles: OurCircles, n: usize, mask: usize, k: usize) -> OurArc;
    fn probe_area_from_boundary_arcs(circles: OurCircles, n: usize, mask: usize) -> f64;
    fn probe_region_area(circles: OurCircles, n: usize, mask: usize) -> f64;
    fn probe_overlap_gradient(circles: OurCircles, n: usize, mask: usize, grad: *mut f64, entries: usize);
    fn probe_horizontal_span(circles: OurCircles, n: usize, mask: usize, y: f64, x_min: f64, x_max: f64) -> OurSpan;
    fn probe_vertical_span(circles: OurCircles, n: usize, mask: usize, x: f64, y_min: f64, y_max: f64) -> OurSpan;
    fn probe_area_from_clipped_arcs(circles: OurCircles, n: usize, mask: usize, bounds: OurBounds) -> f64;
    fn probe_clipped_region_area(circles: OurCircles, n: usize, mask: usize, bounds: OurBounds) -> f64;
    fn probe_area_and_gradient_from_clipped_arcs(
        circles: OurCircles, n: usize, mask: usize, bounds: OurBounds, grad: *mut f64, entries: usize,
    ) -> f64;
    fn probe_clipped_region_area_and_gradient(
        circles: OurCircles, n: usize, mask: usize, bounds: OurBounds, grad: *mut f64, entries: usize,
    ) -> f64;
    fn probe_clipped_arc_integral_with_gradient(
        circles: OurCircles, n: usize, arc: OurArc, bounds: OurBounds, grad: *mut f64, entries: usize,
    ) -> f64;
}

pub const FUNCTIONS: [&str; 21] = [
    "collect_intersections, how many",
    "collect_intersections, coordinates",
    "collect_intersections, parents",
    "collect_intersections, adopters as a mask",
    "region_boundary_arcs, how many",
    "region_boundary_arcs, heads",
    "region_boundary_arcs, angles",
    "area_from_boundary_arcs",
    "area_from_boundary_arcs, ours from the members",
    "accumulate_region_overlap_gradient onto zeros",
    "accumulate_region_overlap_gradient onto other numbers",
    "edge_inside_interval, how many",
    "edge_inside_interval, ends",
    "area_from_clipped_arcs",
    "area_from_clipped_arcs, ours from the members",
    "area_and_gradient_from_clipped_arcs, area",
    "area_and_gradient_from_clipped_arcs, gradient",
    "area_and_gradient_from_clipped_arcs, ours from the members",
    "clipped_arc_integral_with_gradient, integral",
    "clipped_arc_integral_with_gradient, gradient",
    "wrap_angle",
];

const NUMBERS: [&str; 11] = [
    "plans of no heads", "plans of 1 head", "plans of 2", "plans of 3", "plans of 4", "plans of 5", "plans of 6", "plans of 7",
    "plans of 8", "plans of 9", "plans of ten heads",
];

impl Case {
    // The spans of the four edges: bottom, right, top, left.
    fn spans(&self, mask: usize) -> [Option<(f64, f64)>; 4] {
        let Bounds { x_min, x_max, y_min, y_max } = self.bounds;
        let own = mask_to_indices(mask, self.n);
        [
            horizontal_edge_inside_interval(y_min, x_min, x_max, &own, &self.circles),
            vertical_edge_inside_interval(x_max, y_min, y_max, &own, &self.circles),
            horizontal_edge_inside_interval(y_max, x_min, x_max, &own, &self.circles),
            vertical_edge_inside_interval(x_min, y_min, y_max, &own, &self.circles),
        ]
    }

    fn our_spans(&self, mask: usize) -> [OurSpan; 4] {
        let Bounds { x_min, x_max, y_min, y_max } = self.bounds;
        unsafe {
            [
                probe_horizontal_span(self.ours, self.n, mask, y_min, x_min, x_max),
                probe_vertical_span(self.ours, self.n, mask, x_max, y_min, y_max),
                probe_horizontal_span(self.ours, self.n, mask, y_max, x_min, x_max),
                probe_vertical_span(self.ours, self.n, mask, x_min, y_min, y_max),
            ]
        }
    }

    fn clipped(&self, mask: usize, arcs: &[BoundaryArc]) -> (f64, Vec<f64>) {
        let mut grad = vec![0.0; 3 * self.n + 4];
        let area = area_and_gradient_from_clipped_arcs(arcs, &self.circles, &self.container, mask, self.n, &mut grad);
        (area, grad)
    }
}

pub fn points(tally: &mut Tally, case: &Case, given: &Given) {
    let (input, place) = (|| given.input.clone(), |head: usize| given.spread.places[head]);
    let number = unsafe { probe_number_of_points(given.ours, given.n) };
    tally.things("meeting points", case.points.len());
    tally.whole("collect_intersections, how many", number as u64, case.points.len() as u64, input);
    for (k, theirs) in case.points.iter().enumerate() {
        let ours = unsafe { probe_point(given.ours, given.n, k) };
        let p = theirs.point();
        tally.floats("collect_intersections, coordinates", &[ours.x, ours.y], &[p.x(), p.y()], input);
        let (first, second) = (place(theirs.parents().0), place(theirs.parents().1));
        tally.whole("collect_intersections, parents", (ours.first * 16 + ours.second) as u64, (first * 16 + second) as u64, input);
        let mask = given.spread.mask(adopters_to_mask(theirs.adopters()));
        tally.whole("collect_intersections, adopters as a mask", ours.adopters as u64, mask as u64, input);
        // the Rust's adopters ascend, so that their mask says all of them
        assert!(theirs.adopters().windows(2).all(|w| w[0] < w[1]), "adopters {:?} of {}", theirs.adopters(), input());
    }
}

pub fn our_arcs(case: &Case, mask: usize) -> Vec<OurArc> {
    let number = unsafe { probe_number_of_arcs(case.ours, case.n, mask) };
    (0..number).map(|k| unsafe { probe_arc(case.ours, case.n, mask, k) }).collect()
}

fn arcs(tally: &mut Tally, case: &Case, mask: usize, theirs: &[BoundaryArc]) {
    let input = || format!("{}, set {mask:X}", case.input());
    let number = unsafe { probe_number_of_arcs(case.ours, case.n, mask) };
    tally.things("arcs", theirs.len());
    tally.whole("region_boundary_arcs, how many", number as u64, theirs.len() as u64, input);
    for (k, arc) in theirs.iter().enumerate() {
        let ours = unsafe { probe_arc(case.ours, case.n, mask, k) };
        tally.whole("region_boundary_arcs, heads", ours.head as u64, arc.circle as u64, input);
        let angles = [arc.phi_start, arc.phi_end, arc.delta_phi];
        tally.floats("region_boundary_arcs, angles", &[ours.start, ours.end, ours.delta], &angles, input);
    }
}

fn open(tally: &mut Tally, case: &Case, mask: usize, theirs: &[BoundaryArc], random: &mut Random) {
    let input = || format!("{}, set {mask:X}", case.input());
    let area = area_from_boundary_arcs(theirs, &case.circles);
    let ours = unsafe { probe_area_from_boundary_arcs(case.ours, case.n, mask) };
    tally.float("area_from_boundary_arcs", ours, area, input);
    let ours = unsafe { probe_region_area(case.ours, case.n, mask) };
    tally.float("area_from_boundary_arcs, ours from the members", ours, area, input);
    let other: Vec<f64> = (0..3 * case.n).map(|_| random.whole(-1000, 1000) as f64 / 7.0).collect();
    for (name, start) in [
        ("accumulate_region_overlap_gradient onto zeros", vec![0.0; 3 * case.n]),
        ("accumulate_region_overlap_gradient onto other numbers", other),
    ] {
        let (mut grad, mut ours) = (start.clone(), start);
        accumulate_region_overlap_gradient(theirs, &case.circles, &mut grad);
        unsafe { probe_overlap_gradient(case.ours, case.n, mask, ours.as_mut_ptr(), ours.len()) };
        tally.floats(name, &ours, &grad, input);
    }
    tally.things("gradient entries", 2 * 3 * case.n);
    tally.things("areas", 1);
}

fn spans(tally: &mut Tally, case: &Case, mask: usize) {
    let input = || format!("{}, set {mask:X}", case.input());
    for (ours, theirs) in case.our_spans(mask).iter().zip(case.spans(mask)) {
        tally.whole("edge_inside_interval, how many", ours.number as u64, theirs.is_some() as u64, input);
        let (low, high) = theirs.unwrap_or((0.0, 0.0));
        tally.floats("edge_inside_interval, ends", &[ours.low, ours.high], &[low, high], input);
        tally.things("spans", theirs.is_some() as usize);
    }
}

// Three entries of each member by its position, and the box's four, at their places by head numbers.
fn by_heads(own: &[f64], mask: usize, n: usize) -> Vec<f64> {
    let mut all = vec![0.0; 3 * n + 4];
    let members = mask_to_indices(mask, n);
    for (position, head) in members.iter().enumerate() {
        all[3 * head..3 * head + 3].copy_from_slice(&own[3 * position..3 * position + 3]);
    }
    all[3 * n..].copy_from_slice(&own[3 * members.len()..]);
    all
}

fn clipped(tally: &mut Tally, case: &Case, mask: usize, theirs: &[BoundaryArc]) {
    let input = || format!("{}, set {mask:X}", case.input());
    let area = area_from_clipped_arcs(theirs, &case.circles, &case.container, mask, case.n);
    let ours = unsafe { probe_area_from_clipped_arcs(case.ours, case.n, mask, case.our_bounds()) };
    tally.float("area_from_clipped_arcs", ours, area, input);
    let ours = unsafe { probe_clipped_region_area(case.ours, case.n, mask, case.our_bounds()) };
    tally.float("area_from_clipped_arcs, ours from the members", ours, area, input);
    let (area, grad) = case.clipped(mask, theirs);
    let mut ours = vec![0.0; grad.len()];
    let summed = unsafe {
        probe_area_and_gradient_from_clipped_arcs(case.ours, case.n, mask, case.our_bounds(), ours.as_mut_ptr(), ours.len())
    };
    tally.float("area_and_gradient_from_clipped_arcs, area", summed, area, input);
    tally.floats("area_and_gradient_from_clipped_arcs, gradient", &ours, &grad, input);
    let mut own = vec![0.0; 3 * mask.count_ones() as usize + 4];
    let summed = unsafe {
        probe_clipped_region_area_and_gradient(case.ours, case.n, mask, case.our_bounds(), own.as_mut_ptr(), own.len())
    };
    tally.float("area_and_gradient_from_clipped_arcs, ours from the members", summed, area, input);
    tally.floats("area_and_gradient_from_clipped_arcs, ours from the members", &by_heads(&own, mask, case.n), &grad, input);
    tally.things("areas", 2);
    tally.things("gradient entries", 3 * case.n + 4);
}

// Of each arc its integral along the parts in the box, and its gradient onto other numbers.
fn arc_integrals(tally: &mut Tally, case: &Case, mask: usize, theirs: &[BoundaryArc], random: &mut Random) {
    let input = || format!("{}, set {mask:X}", case.input());
    let Bounds { x_min, x_max, y_min, y_max } = case.bounds;
    for arc in theirs {
        let mut grad: Vec<f64> = (0..3 * case.n + 4).map(|_| random.whole(-1000, 1000) as f64 / 7.0).collect();
        let mut ours = grad.clone();
        let integral = clipped_arc_integral_with_gradient(arc, &case.circles, x_min, x_max, y_min, y_max, &mut grad);
        let given = OurArc { head: arc.circle, start: arc.phi_start, end: arc.phi_end, delta: arc.delta_phi };
        let summed = unsafe {
            probe_clipped_arc_integral_with_gradient(case.ours, case.n, given, case.our_bounds(), ours.as_mut_ptr(), ours.len())
        };
        tally.float("clipped_arc_integral_with_gradient, integral", summed, integral, input);
        tally.floats("clipped_arc_integral_with_gradient, gradient", &ours, &grad, input);
    }
}

// What is compared of one plan; what it needs of chance beyond the plan itself comes from `random`.
fn plan(tally: &mut Tally, case: &Case, random: &mut Random) {
    tally.input();
    tally.things(NUMBERS[case.n], 1);
    points(tally, case, &Given::same(case));
    for mask in case.masks(random) {
        let theirs = case.arcs(mask);
        tally.things("sets", 1);
        arcs(tally, case, mask, &theirs);
        open(tally, case, mask, &theirs, random);
        spans(tally, case, mask);
        clipped(tally, case, mask, &theirs);
        arc_integrals(tally, case, mask, &theirs, random);
    }
    sets::compare(tally, case, random);
}

// Angles for wrap_angle: multiples of a half turn with their neighbours, angles of arcs, and any floats.
fn angles(random: &mut Random, number: usize) -> Vec<f64> {
    let mut all = vec![0.0, -0.0, f64::INFINITY, f64::NEG_INFINITY, f64::NAN, f64::MAX, f64::MIN, f64::MIN_POSITIVE, 5e-324];
    for k in -8..=8 {
        let v = k as f64 * PI;
        all.extend([v, v.next_up(), v.next_down(), v.next_up().next_up(), k as f64 * (2.0 * PI) + PI]);
    }
    while all.len() < number {
        let bits = random.next();
        all.push(match bits % 4 {
            0 => f64::from_bits(random.next()),
            1 => (random.whole(-1000000, 1000000) as f64) * PI,
            _ => (random.next() >> 11) as f64 / (1u64 << 53) as f64 * 40.0 - 20.0,
        });
    }
    all.truncate(number);
    all
}

fn compare_angles(count: u64, random: &mut Random, tally: &mut Tally) {
    tally.begin("angles to wrap", "angles");
    for a in angles(random, count.max(100) as usize) {
        tally.input();
        tally.float("wrap_angle", unsafe { probe_wrap_angle(a) }, wrap_angle(a), || words(&[a]));
    }
    tally.close();
}

pub fn compare(count: u64, seed: u64, tally: &mut Tally) {
    let number = |category: &Category| (count * category.share / 100).max(1);
    for (i, category) in CATEGORIES.iter().enumerate() {
        let (mut random, mut other) = (Random::of(seed, 100 + i), Random::of(seed, 300 + i));
        tally.begin(category.name, "plans");
        for _ in 0..number(category) {
            plan(tally, &Case::of((category.plan)(&mut random)), &mut other);
        }
        tally.close();
    }
    // With identical heads: the Rust's functions, given the meeting points that document 01 leaves; and the claims about them.
    for (i, category) in TWINS.iter().enumerate() {
        let (mut random, mut other) = (Random::of(seed, 200 + i), Random::of(seed, 400 + i));
        tally.begin(category.name, "plans with identical heads");
        for _ in 0..number(category) {
            let case = Case::of_any((category.plan)(&mut random));
            plan(tally, &case, &mut other);
            twins::compare(tally, &case);
        }
        tally.close();
    }
    compare_angles(10 * count, &mut Random::of(seed, 99), tally);
}

// ---- the stored list

// A letter, whole numbers, floats.
fn line(letter: char, whole: &[usize], floats: &[f64]) {
    let whole: String = whole.iter().map(|n| format!(" {n:X}")).collect();
    println!("{letter}{whole}{}", words(floats));
}

fn list_set(case: &Case, mask: usize) {
    let arcs = case.arcs(mask);
    line('N', &[mask, arcs.len()], &[]);
    for (k, arc) in arcs.iter().enumerate() {
        line('T', &[mask, k, arc.circle], &[arc.phi_start, arc.phi_end, arc.delta_phi]);
    }
    line('R', &[mask], &[area_from_boundary_arcs(&arcs, &case.circles)]);
    let mut grad = vec![0.0; 3 * case.n];
    accumulate_region_overlap_gradient(&arcs, &case.circles, &mut grad);
    line('G', &[mask], &grad);
    for (edge, span) in case.spans(mask).iter().enumerate() {
        let (low, high) = span.unwrap_or((0.0, 0.0));
        line('S', &[mask, edge, span.is_some() as usize], &[low, high]);
    }
    line('K', &[mask], &[area_from_clipped_arcs(&arcs, &case.circles, &case.container, mask, case.n)]);
    let (area, grad) = case.clipped(mask, &arcs);
    line('L', &[mask], &[&[area], grad.as_slice()].concat());
}

fn list_plan(case: &Case, masks: &[usize]) {
    line('H', &[case.n], &case.ours.numbers[..3 * case.n]);
    let Bounds { x_min, x_max, y_min, y_max } = case.bounds;
    line('X', &[], &[x_min, x_max, y_min, y_max]);
    line('I', &[case.points.len()], &[]);
    for (k, q) in case.points.iter().enumerate() {
        let (first, second) = q.parents();
        let floats = words(&[q.point().x(), q.point().y()]);
        println!("Q {k:X}{floats} {first:X} {second:X} {:X}", adopters_to_mask(q.adopters()));
    }
    for &mask in masks {
        list_set(case, mask);
    }
}

// For the first turn a plan of at least 8 heads, for the others of 2 to 7, more of few than of many; fewer where none comes soon.
fn listed(category: &Category, turn: u64, random: &mut Random) -> Plan {
    const NUMBERS: [usize; 12] = [3, 5, 2, 4, 2, 7, 3, 2, 6, 3, 2, 3];
    let number = if turn == 0 { 8 } else { NUMBERS[(turn - 1) as usize % NUMBERS.len()] };
    let mut plan = (category.plan)(random);
    for _ in 0..50 {
        if plan.heads.len() < number {
            plan = (category.plan)(random);
        }
    }
    if turn > 0 {
        plan.heads.truncate(number);
    }
    plan
}

// A single and five other sets (four where there are more than four heads), those that have arcs first.
fn listed_sets(case: &Case, random: &mut Random) -> Vec<usize> {
    let mut masks = case.masks(random);
    masks.retain(|m| m.count_ones() != 1);
    masks.sort_by_key(|m| case.arcs(*m).is_empty());
    masks.truncate(if case.n > 4 { 4 } else { 5 });
    masks.push(1 << (random.next() % case.n as u64));
    masks
}

// About `count` plans, mostly of few heads and with few sets; each category has one of many heads, where it can. Crate `replay`
// takes no plan without heads.
pub fn list(count: u64, seed: u64) {
    for (i, category) in CATEGORIES.iter().enumerate() {
        let mut random = Random::of(seed, 100 + i);
        for turn in 0..(count * category.share / 100).max(3) {
            let case = Case::of(listed(category, turn, &mut random));
            if case.n > 0 {
                let masks = listed_sets(&case, &mut random);
                list_plan(&case, &masks);
            }
        }
    }
    for a in angles(&mut Random::of(seed, 99), count as usize) {
        if a.is_finite() {
            line('W', &[], &[a, wrap_angle(a)]);
        }
    }
}
