// The functions on points, boxes and pairs of circles: distance, area, bounds, contains, contains_point, intersects,
// intersection_area, intersection_points.

use crate::geometry::primitives::{Bounds, Point};
use crate::geometry::shapes::Rectangle;
use crate::geometry::traits::{Area, BoundingBox, Closed};
use crate::case::{circle, words, OurBounds};
use crate::inputs::{Head, Random, CATEGORIES};
use crate::tally::Tally;

// How many points, and their coordinates; an absent coordinate is +0.
#[repr(C)]
struct OurPoints {
    number: usize,
    x1: f64,
    y1: f64,
    x2: f64,
    y2: f64,
}

extern "C" {
    fn probe_distance(x1: f64, y1: f64, x2: f64, y2: f64) -> f64;
    fn probe_rectangle_area(x: f64, y: f64, width: f64, height: f64) -> f64;
    fn probe_rectangle_bounds(x: f64, y: f64, width: f64, height: f64) -> OurBounds;
    fn probe_circle_area(x: f64, y: f64, r: f64) -> f64;
    fn probe_contains(x1: f64, y1: f64, r1: f64, x2: f64, y2: f64, r2: f64) -> bool;
    fn probe_contains_point(x1: f64, y1: f64, r1: f64, x2: f64, y2: f64) -> bool;
    fn probe_intersects(x1: f64, y1: f64, r1: f64, x2: f64, y2: f64, r2: f64) -> bool;
    fn probe_intersection_area(x1: f64, y1: f64, r1: f64, x2: f64, y2: f64, r2: f64) -> f64;
    fn probe_intersection_points(x1: f64, y1: f64, r1: f64, x2: f64, y2: f64, r2: f64) -> OurPoints;
}

pub const FUNCTIONS: [&str; 13] = [
    "Rectangle area",
    "Rectangle bounds",
    "contains_point",
    "intersection_points of identical circles: none, where the Rust has two NaN points",
    "intersection_points, how many",
    "intersection_points, a coordinate",
    "distance",
    "Circle area",
    "contains",
    "intersects",
    "intersection_area",
    "how many points, against whole numbers",
    "contains, against whole numbers",
];

fn rectangle(tally: &mut Tally, x: f64, y: f64, width: f64, height: f64) {
    let input = || words(&[x, y, width, height]);
    let theirs = Rectangle::new(Point::new(x, y), width, height);
    tally.float("Rectangle area", unsafe { probe_rectangle_area(x, y, width, height) }, theirs.area(), input);
    let ours = unsafe { probe_rectangle_bounds(x, y, width, height) };
    let Bounds { x_min, x_max, y_min, y_max } = theirs.bounds();
    for (o, t) in [(ours.x_min, x_min), (ours.x_max, x_max), (ours.y_min, y_min), (ours.y_max, y_max)] {
        tally.float("Rectangle bounds", o, t, input);
    }
}

// The Rust's, of circles that it takes.
pub fn common_points(a: Head, b: Head) -> Vec<(f64, f64)> {
    circle(a).intersection_points(&circle(b)).iter().map(|p| (p.x(), p.y())).collect()
}

// A circle that is closed beside any other: neither holds the other, they have no point in common, and the closed one holds no point, the
// other's centre and those it has in common with a third among them. The Rust has no such circle: `Circle::new` takes none.
pub fn closed(tally: &mut Tally, c: Head, other: Head, third: Head) {
    let input = || words(&[c.x, c.y, c.r, other.x, other.y, other.r]);
    let holds = |a: Head, b: Head| unsafe { probe_contains(a.x, a.y, a.r, b.x, b.y, b.r) } as u64;
    let points = |a: Head, b: Head| unsafe { probe_intersection_points(a.x, a.y, a.r, b.x, b.y, b.r) }.number as u64;
    let held = |x: f64, y: f64| unsafe { probe_contains_point(c.x, c.y, c.r, x, y) } as u64;
    tally.wholes("closed circles: contains", &[holds(c, other), holds(other, c), holds(c, c)], &[0; 3], input);
    tally.wholes("closed circles: intersection_points, how many", &[points(c, other), points(other, c), points(c, c)], &[0; 3], input);
    let shared = unsafe { probe_intersection_points(other.x, other.y, other.r, third.x, third.y, third.r) };
    let ours = [held(c.x, c.y), held(other.x, other.y), held(shared.x1, shared.y1), held(shared.x2, shared.y2)];
    tally.wholes("closed circles: contains_point", &ours, &[0; 4], input);
    if c.r == 0.0 {
        let area = |a: Head, b: Head| unsafe { probe_intersection_area(a.x, a.y, a.r, b.x, b.y, b.r) };
        let areas = [unsafe { probe_circle_area(c.x, c.y, c.r) }, area(c, other), area(other, c), area(c, c)];
        tally.floats("circles of radius 0: area, intersection_area", &areas, &[0.0; 4], input);
        let intersect = |a: Head, b: Head| unsafe { probe_intersects(a.x, a.y, a.r, b.x, b.y, b.r) } as u64;
        tally.wholes("circles of radius 0: intersects", &[intersect(c, other), intersect(other, c), intersect(c, c)], &[0; 3], input);
    }
}

fn contains_point(tally: &mut Tally, a: Head, p: &Point) {
    let ours = unsafe { probe_contains_point(a.x, a.y, a.r, p.x(), p.y()) };
    tally.whole("contains_point", ours as u64, circle(a).contains_point(p) as u64, || words(&[a.x, a.y, a.r, p.x(), p.y()]));
}

fn intersection_points(tally: &mut Tally, a: Head, b: Head, theirs: &[Point]) {
    let input = || words(&[a.x, a.y, a.r, b.x, b.y, b.r]);
    let ours = unsafe { probe_intersection_points(a.x, a.y, a.r, b.x, b.y, b.r) };
    if a == b {
        // docs/DIFFERENCES.md: the Rust divides zero by zero, and ours meet nowhere
        let no_numbers = theirs.len() == 2 && theirs.iter().all(|p| p.x().is_nan() && p.y().is_nan());
        tally.whole("intersection_points of identical circles: none, where the Rust has two NaN points",
            ours.number as u64, if no_numbers { 0 } else { 3 }, input);
        return;
    }
    tally.whole("intersection_points, how many", ours.number as u64, theirs.len() as u64, input);
    let coordinates = [ours.x1, ours.y1, ours.x2, ours.y2];
    for (i, p) in theirs.iter().enumerate() {
        tally.float("intersection_points, a coordinate", coordinates[2 * i], p.x(), input);
        tally.float("intersection_points, a coordinate", coordinates[2 * i + 1], p.y(), input);
    }
}

// Document 01's facts to hold, over whole numbers: in how many points two heads of the domain meet, and whether a contains b.
fn by_whole_numbers(a: Head, b: Head) -> Option<(u64, u64)> {
    let numbers = [a.x, a.y, a.r, b.x, b.y, b.r];
    if numbers.iter().any(|&n| (n as i64) as f64 != n || n.abs() > 20000.0) {
        return None;
    }
    let [x1, y1, r1, x2, y2, r2] = numbers.map(|n| n as i64);
    let (squared, sum, difference) = ((x1 - x2) * (x1 - x2) + (y1 - y2) * (y1 - y2), r1 + r2, r1 - r2);
    let meet = difference * difference <= squared && squared <= sum * sum && a != b;
    let touch = squared == difference * difference || squared == sum * sum;
    let contains = r1 >= r2 && squared <= difference * difference;
    Some((if !meet { 0 } else if touch { 1 } else { 2 }, contains as u64))
}

fn pair(tally: &mut Tally, a: Head, b: Head) {
    let input = || words(&[a.x, a.y, a.r, b.x, b.y, b.r]);
    let (first, second) = (circle(a), circle(b));
    tally.input();
    let d = first.center().distance(second.center());
    tally.float("distance", unsafe { probe_distance(a.x, a.y, b.x, b.y) }, d, input);
    tally.float("Circle area", unsafe { probe_circle_area(a.x, a.y, a.r) }, first.area(), input);
    rectangle(tally, a.x, a.y, a.r, b.r);
    rectangle(tally, b.x, b.y, a.x, a.y);
    let ours = unsafe { probe_contains(a.x, a.y, a.r, b.x, b.y, b.r) };
    tally.whole("contains", ours as u64, first.contains(&second) as u64, input);
    let ours = unsafe { probe_intersects(a.x, a.y, a.r, b.x, b.y, b.r) };
    tally.whole("intersects", ours as u64, first.intersects(&second) as u64, input);
    let ours = unsafe { probe_intersection_area(a.x, a.y, a.r, b.x, b.y, b.r) };
    tally.float("intersection_area", ours, first.intersection_area(&second), input);
    let points = first.intersection_points(&second);
    intersection_points(tally, a, b, &points);
    if let Some((number, contained)) = by_whole_numbers(a, b) {
        let ours = unsafe { probe_intersection_points(a.x, a.y, a.r, b.x, b.y, b.r) };
        tally.whole("how many points, against whole numbers", ours.number as u64, number, input);
        tally.whole("contains, against whole numbers", first.contains(&second) as u64, contained, input);
    }
    contains_point(tally, a, second.center());
    for p in &points {
        contains_point(tally, a, p);
        contains_point(tally, b, p);
    }
}

// Each pair that a category makes is compared in both orders.
pub fn compare(count: u64, seed: u64, tally: &mut Tally) {
    for (i, category) in CATEGORIES.iter().enumerate() {
        let mut random = Random::of(seed, i);
        tally.begin(category.name, "pairs");
        for _ in 0..(count * category.share / 200).max(1) {
            let (a, b) = (category.pair)(&mut random);
            pair(tally, a, b);
            pair(tally, b, a);
        }
        tally.close();
    }
}

// The Rust's answers as lines for the crate `replay`, whose file pair.rt says how a line reads. Circles that are identical, and
// pairs with a NaN or an infinity, have no line.
pub fn list(count: u64, seed: u64) {
    for (i, category) in CATEGORIES.iter().enumerate() {
        let mut random = Random::of(seed, i);
        for _ in 0..(count * category.share / 200).max(1) {
            let (a, b) = (category.pair)(&mut random);
            list_pair(a, b);
            list_pair(b, a);
        }
    }
}

fn list_pair(a: Head, b: Head) {
    let (first, second) = (circle(a), circle(b));
    let points = first.intersection_points(&second);
    let mut coordinates = [0.0; 4];
    for (i, p) in points.iter().enumerate() {
        (coordinates[2 * i], coordinates[2 * i + 1]) = (p.x(), p.y());
    }
    let bounds = Rectangle::new(Point::new(a.x, a.y), a.r, b.r);
    let Bounds { x_min, x_max, y_min, y_max } = bounds.bounds();
    let mut numbers = vec![a.x, a.y, a.r, b.x, b.y, b.r];
    numbers.extend([first.center().distance(second.center()), first.area(), bounds.area(), x_min, x_max, y_min, y_max]);
    numbers.extend(coordinates);
    let shared = first.intersection_area(&second);
    if a == b || numbers.iter().chain([&shared]).any(|n| !n.is_finite()) {
        return;
    }
    let answers = [
        points.len(),
        first.contains(&second) as usize,
        first.contains_point(second.center()) as usize,
        first.intersects(&second) as usize,
    ];
    let whole: String = answers.iter().map(|n| format!(" {n}")).collect();
    println!("P{}{}{}", words(&numbers), whole, words(&[shared]));
}
