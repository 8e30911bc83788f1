// The Rust's functions of whole diagrams as a library; ours.rs beside it says which root, sine and the rest they use.

include!("modules.rs");

#[allow(dead_code)]
mod ours;

use geometry::diagram::{compute_exclusive_regions, compute_exclusive_regions_with_gradient_circles};
use geometry::primitives::Point;
use geometry::shapes::circle::{compute_exclusive_regions_clipped, compute_exclusive_regions_clipped_with_gradient};
use geometry::shapes::{Circle, Rectangle};

pub struct Plan {
    circles: Vec<Circle>,
    container: Rectangle,
}

impl Plan {
    pub fn of(sides: [f64; 4], heads: &[[f64; 3]]) -> Plan {
        let circles = heads.iter().map(|h| Circle::new(Point::new(h[0], h[1]), h[2])).collect();
        Plan { circles, container: Rectangle::new(Point::new(sides[0], sides[1]), sides[2], sides[3]) }
    }

    // Each answers how many rows it worked out.
    pub fn afresh(&self) -> usize {
        compute_exclusive_regions_clipped(&self.circles, &self.container).len()
    }

    pub fn open_afresh(&self) -> usize {
        compute_exclusive_regions(&self.circles).len()
    }

    pub fn gradients(&self) -> usize {
        compute_exclusive_regions_clipped_with_gradient(&self.circles, &self.container).0.len()
    }

    pub fn open_gradients(&self) -> usize {
        compute_exclusive_regions_with_gradient_circles(&self.circles).0.len()
    }
}
