// The arcs of a set's outline as crate `sums` finds them: of each head all its meeting points by angle, and a record of the gap from
// each to the next, with the heads that let it; a set walks along the points that it adopts. Only tests/differential/faults builds this in,
// as a module of the Rust's circle.rs: its faults of records are put here. Without one it gives what region_boundary_arcs gives.

use super::{arc_midpoint_owned_by_j, wrap_angle, BoundaryArc, Circle};
use crate::geometry::diagram::{adopters_to_mask, mask_to_indices, IntersectionPoint};
use crate::geometry::primitives::Point;
use crate::ours::Ours;
use std::f64::consts::PI;

// The heads that let head j have the point p.
fn letters(j: usize, p: &Point, circles: &[Circle]) -> usize {
    (0..circles.len()).filter(|l| arc_midpoint_owned_by_j(j, p, &[*l], circles)).map(|l| 1 << l).sum()
}

fn gap(phi_a: f64, phi_b: f64) -> f64 {
    let delta = phi_b - phi_a;
    if delta <= 0.0 { delta + 2.0 * PI } else { delta }
}

// The heads that let head j have the gap from one angle to another, by its middle: nobody, where it is collapsed.
fn gap_letters(j: usize, phi_a: f64, phi_b: f64, circles: &[Circle]) -> usize {
    let delta = gap(phi_a, phi_b);
    if delta < 1e-9 || delta > 2.0 * PI - 1e-9 {
        return 0;
    }
    let (c, mid) = (&circles[j], phi_a + delta * 0.5);
    letters(j, &Point::new(c.center().x() + c.radius() * mid.our_cos(), c.center().y() + c.radius() * mid.our_sin()), circles)
}

fn between(j: usize, phi_a: f64, phi_b: f64) -> BoundaryArc {
    let delta = gap(phi_a, phi_b);
    BoundaryArc { circle: j, phi_start: phi_a, phi_end: wrap_angle(phi_a + delta), delta_phi: delta }
}

fn full_circle(j: usize) -> BoundaryArc {
    BoundaryArc { circle: j, phi_start: 0.0, phi_end: 0.0, delta_phi: 2.0 * PI }
}

// All meeting points of head j by angle, each with its adopters.
fn marks(j: usize, circles: &[Circle], points: &[IntersectionPoint]) -> Vec<(f64, usize)> {
    let c = circles[j].center();
    let angle = |p: &Point| (p.y() - c.y()).our_atan2(p.x() - c.x());
    let own = points.iter().filter(|q| q.parents().0 == j || q.parents().1 == j);
    let mut marks: Vec<(f64, usize)> = own.map(|q| (angle(q.point()), adopters_to_mask(q.adopters()))).collect();
    marks.sort_by(|a, b| a.0.partial_cmp(&b.0).unwrap_or(std::cmp::Ordering::Equal));
    marks
}

// The arcs of head j in the set `mask`.
fn head(mask: usize, j: usize, circles: &[Circle], points: &[IntersectionPoint]) -> Vec<BoundaryArc> {
    let (phi, adopters): (Vec<f64>, Vec<usize>) = marks(j, circles, points).into_iter().unzip();
    let n = phi.len();
    let records: Vec<usize> = (0..n).map(|i| gap_letters(j, phi[i], phi[(i + 1) % n], circles)).collect();
    let asked = mask;
    let counted: Vec<usize> = (0..n).filter(|i| asked & adopters[*i] == asked).collect();
    if counted.is_empty() {
        let probe = Point::new(circles[j].center().x() + circles[j].radius(), circles[j].center().y());
        return if mask & letters(j, &probe, circles) == mask { vec![full_circle(j)] } else { vec![] };
    }
    let mut arcs = Vec::new();
    for (k, &from) in counted.iter().enumerate() {
        let (to, next) = (counted[(k + 1) % counted.len()], (from + 1) % n);
        if to == next {
            if mask & records[from] == mask {
                arcs.push(between(j, phi[from], phi[next]));
            }
        } else if mask & gap_letters(j, phi[from], phi[to], circles) == mask {
            arcs.push(between(j, phi[from], phi[to]));
        }
    }
    arcs
}

pub fn arcs_of(mask: usize, circles: &[Circle], points: &[IntersectionPoint]) -> Vec<BoundaryArc> {
    if mask.count_ones() == 1 {
        return vec![full_circle(mask.trailing_zeros() as usize)];
    }
    mask_to_indices(mask, circles.len()).into_iter().flat_map(|j| head(mask, j, circles, points)).collect()
}
