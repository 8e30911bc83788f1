// The Rust as a whole answers: the plan that document 01 prints, through the clipped functions and the others that later
// comparisons call. So all of them are in the program whose assembly is scanned.

use crate::geometry::diagram;
use crate::geometry::operations::overlaps::compute_overlaps_circles;
use crate::geometry::primitives::Point;
use crate::geometry::shapes::{Circle, Rectangle};
use crate::geometry::traits::DiagramShape;
use std::hint::black_box;

pub fn answers() {
    // a black box, so that no part of the Rust is left out of the program as never reached
    let circles = black_box(vec![Circle::new(Point::new(1000.0, 1000.0), 500.0)]);
    let container = black_box(Rectangle::new(Point::new(0.0, 0.0), 20.0, 10.0));
    let areas = Circle::compute_exclusive_regions_clipped(&circles, &container).unwrap();
    assert_eq!(areas[&0].to_bits(), 0x4069_0000_0000_0000);
    assert_eq!(areas[&1].to_bits(), 0);
    let (areas, gradients) = Circle::compute_exclusive_regions_clipped_with_gradient(&circles, &container).unwrap();
    assert_eq!((areas.len(), gradients[&0].len()), (2, 7));
    let (areas, gradients) = Circle::compute_exclusive_regions_with_gradient(&circles).unwrap();
    assert_eq!((areas.len(), gradients[&1].len()), (1, 3));
    assert_eq!(diagram::compute_exclusive_regions(&circles).len(), 1);
    assert!(compute_overlaps_circles(&circles) > 0.0);
}
