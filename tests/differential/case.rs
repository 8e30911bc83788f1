// One plan for both sides: the Rust's circles, box and meeting points, what they give, and the numbers that our exports take.

use crate::geometry::diagram::{
    collect_intersections, compute_exclusive_regions, compute_exclusive_regions_with_gradient_circles, discover_regions, mask_to_indices,
    to_exclusive_areas, to_exclusive_areas_and_gradients, IntersectionPoint,
};
use crate::geometry::primitives::{Bounds, Point};
use crate::geometry::operations::overlaps::compute_overlaps_circles;
use crate::geometry::shapes::circle::{
    accumulate_region_overlap_gradient, area_and_gradient_from_clipped_arcs, area_from_boundary_arcs, area_from_clipped_arcs,
    compute_exclusive_regions_clipped, compute_exclusive_regions_clipped_with_gradient, region_boundary_arcs, BoundaryArc,
};
use crate::geometry::shapes::{Circle, Rectangle};
use crate::geometry::traits::{Area, BoundingBox};
use crate::inputs::{Head, Random};
use crate::plans::{twins_of, Plan, Sides};
use std::collections::HashMap;

// x, y and radius of ten heads in turn.
#[repr(C)]
#[derive(Clone, Copy)]
pub struct OurCircles {
    pub numbers: [f64; 30],
}

impl OurCircles {
    // What stands past the circles is looked at by neither side: a circle that covers all others.
    pub fn of(heads: &[Head]) -> Self {
        let mut numbers = [40000.0; 30];
        for (i, h) in heads.iter().enumerate() {
            numbers[3 * i..3 * i + 3].copy_from_slice(&[h.x, h.y, h.r]);
        }
        OurCircles { numbers }
    }
}

#[repr(C)]
pub struct OurBounds {
    pub x_min: f64,
    pub x_max: f64,
    pub y_min: f64,
    pub y_max: f64,
}

pub struct Case {
    pub n: usize,
    pub heads: Vec<Head>,
    pub sides: Sides,
    pub circles: Vec<Circle>,
    pub container: Rectangle,
    pub bounds: Bounds,
    pub points: Vec<IntersectionPoint>,
    pub ours: OurCircles,
}

pub fn circle(h: Head) -> Circle {
    Circle::new(Point::new(h.x, h.y), h.r)
}

pub fn words(numbers: &[f64]) -> String {
    numbers.iter().map(|n| format!(" {:016X}", n.to_bits())).collect()
}

// The numbers of a plan, as differences print them.
pub fn input(heads: &[Head], s: Sides) -> String {
    let heads: Vec<String> = heads.iter().map(|h| words(&[h.x, h.y, h.r])).collect();
    format!("heads{}, box{}", heads.join(","), words(&[s.x, s.y, s.width, s.height]))
}

// The Rust's meeting points of heads of which some may be identical, less those of two identical ones: document 01 has none there,
// where the Rust divides zero by zero.
pub fn points_of_twins(heads: &[Head], circles: &[Circle]) -> Vec<IntersectionPoint> {
    let mut points = collect_intersections(circles, circles.len());
    points.retain(|q| heads[q.parents().0] != heads[q.parents().1]);
    points
}

// The Rust's, but that three circles or more of which some are identical get the meeting points that document 01 leaves.
pub fn overlap(heads: &[Head], circles: &[Circle]) -> f64 {
    let n = circles.len();
    if n < 3 || twins_of(heads).is_empty() {
        return compute_overlaps_circles(circles);
    }
    let arcs = region_boundary_arcs((1 << n) - 1, circles, &points_of_twins(heads, circles), n);
    area_from_boundary_arcs(&arcs, circles)
}

// A table of areas by mask, and one of gradients, as the Rust has them.
pub type Rows = HashMap<usize, f64>;
pub type Slopes = HashMap<usize, Vec<f64>>;

impl Case {
    pub fn of(plan: Plan) -> Self {
        assert!(plan.twins().is_empty(), "identical heads in a plan that is compared with the Rust as it is");
        Case::of_any(plan)
    }

    // Of a plan whose heads may be identical.
    pub fn of_any(plan: Plan) -> Self {
        let circles: Vec<Circle> = plan.heads.iter().map(|h| circle(*h)).collect();
        let s = plan.sides;
        let container = Rectangle::new(Point::new(s.x, s.y), s.width, s.height);
        let n = circles.len();
        let ours = OurCircles::of(&plan.heads);
        let points = points_of_twins(&plan.heads, &circles);
        let bounds = container.bounds();
        Case { n, heads: plan.heads, sides: s, circles, container, bounds, points, ours }
    }

    pub fn input(&self) -> String {
        input(&self.heads, self.sides)
    }

    pub fn our_bounds(&self) -> OurBounds {
        let Bounds { x_min, x_max, y_min, y_max } = self.bounds;
        OurBounds { x_min, x_max, y_min, y_max }
    }

    // The masks that the Rust finds, in no order.
    pub fn found(&self) -> Vec<usize> {
        discover_regions(&self.circles, &self.points, self.n)
    }

    pub fn arcs(&self, mask: usize) -> Vec<BoundaryArc> {
        region_boundary_arcs(mask, &self.circles, &self.points, self.n)
    }

    // The areas of the sets in the box, and of the box.
    pub fn rows_in_the_box(&self) -> Rows {
        let area = |mask| area_from_clipped_arcs(&self.arcs(mask), &self.circles, &self.container, mask, self.n);
        let mut rows: Rows = self.found().into_iter().map(|mask| (mask, area(mask))).collect();
        rows.insert(0, self.container.area());
        rows
    }

    // The areas of the sets without a box.
    pub fn open_rows(&self) -> Rows {
        let area = |mask| area_from_boundary_arcs(&self.arcs(mask), &self.circles);
        self.found().into_iter().map(|mask| (mask, area(mask))).collect()
    }

    fn has_twins(&self) -> bool {
        !twins_of(&self.heads).is_empty()
    }

    // What the Rust's functions of whole diagrams give, by their names; with identical heads what they would give of the meeting points that
    // document 01 leaves.
    pub fn exclusives_in_the_box(&self) -> Rows {
        match self.has_twins() {
            true => to_exclusive_areas(&self.rows_in_the_box()),
            false => compute_exclusive_regions_clipped(&self.circles, &self.container),
        }
    }

    pub fn open_exclusives(&self) -> Rows {
        match self.has_twins() {
            true => to_exclusive_areas(&self.open_rows()),
            false => compute_exclusive_regions(&self.circles),
        }
    }

    pub fn slopes_in_the_box(&self) -> (Rows, Slopes) {
        if !self.has_twins() {
            return compute_exclusive_regions_clipped_with_gradient(&self.circles, &self.container);
        }
        let width = 3 * self.n + 4;
        let (mut areas, mut slopes) = (Rows::new(), Slopes::new());
        for mask in self.found() {
            let mut grad = vec![0.0; width];
            let arcs = self.arcs(mask);
            areas.insert(mask, area_and_gradient_from_clipped_arcs(&arcs, &self.circles, &self.container, mask, self.n, &mut grad));
            slopes.insert(mask, grad);
        }
        areas.insert(0, self.container.area());
        let mut of_the_box = vec![0.0; width];
        of_the_box[3 * self.n + 2] = self.container.area();
        slopes.insert(0, of_the_box);
        to_exclusive_areas_and_gradients(&areas, &slopes, width)
    }

    pub fn open_slopes(&self) -> (Rows, Slopes) {
        if !self.has_twins() {
            return compute_exclusive_regions_with_gradient_circles(&self.circles);
        }
        let mut slopes = Slopes::new();
        for mask in self.found() {
            let mut grad = vec![0.0; 3 * self.n];
            accumulate_region_overlap_gradient(&self.arcs(mask), &self.circles, &mut grad);
            slopes.insert(mask, grad);
        }
        to_exclusive_areas_and_gradients(&self.open_rows(), &slopes, 3 * self.n)
    }

    // What the heads of a mask water together, as if they were all there are.
    pub fn overlap_of(&self, mask: usize) -> f64 {
        let own = mask_to_indices(mask, self.n);
        let heads: Vec<Head> = own.iter().map(|i| self.heads[*i]).collect();
        let circles: Vec<Circle> = own.iter().map(|i| self.circles[*i].clone()).collect();
        overlap(&heads, &circles)
    }

    // All sets of at most four heads; of more, at most 40: none, singles, all, some that the Rust finds (pairs first), some others.
    pub fn masks(&self, random: &mut Random) -> Vec<usize> {
        let full = (1 << self.n) - 1;
        if self.n <= 4 {
            return (0..=full).collect();
        }
        let mut masks = vec![0, full];
        masks.extend((0..self.n).map(|i| 1 << i));
        masks.extend((0..4).map(|_| random.next() as usize & full));
        let mut found = self.found();
        found.sort_unstable();
        for i in 0..found.len() {
            let other = i + (random.next() % (found.len() - i) as u64) as usize;
            found.swap(i, other);
        }
        let (pairs, others): (Vec<usize>, Vec<usize>) = found.into_iter().partition(|m| m.count_ones() == 2);
        masks.extend(pairs.into_iter().take(12));
        masks.extend(others.into_iter().filter(|m| m.count_ones() > 2));
        let mut seen = std::collections::HashSet::new();
        masks.retain(|m| seen.insert(*m));
        masks.truncate(40);
        masks
    }
}
