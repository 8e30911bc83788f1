// The Rust's answers for whole plans: reads a plan a line from standard input, whole numbers with a space between them (the box's
// centre x, centre y, width, height, then x, y, radius of each head), and prints what compute_exclusive_regions_clipped gives for
// it as the program `rows` prints a table, then an empty line. The Rust's files are modules of this program, over our root and angles
// (tests/differential/prepare.py).

#[allow(dead_code)]
mod constants;
#[allow(dead_code)]
mod error;
#[allow(dead_code)]
mod geometry {
    pub mod diagram;
    pub mod traits;
    pub mod operations {
        pub mod overlaps;
    }
    pub mod primitives {
        pub mod bounds;
        pub mod point;
        pub use bounds::Bounds;
        pub use point::Point;
    }
    pub mod projective {
        pub use crate::stubs::HomogeneousPoint;
    }
    pub mod shapes {
        pub mod circle;
        pub mod rectangle;
        pub use crate::stubs::{Ellipse, Polygon};
        pub use circle::Circle;
        pub use rectangle::Rectangle;
    }
}
#[allow(dead_code)]
mod spec {
    pub mod combination;
    pub use combination::Combination;
}
#[path = "stubs/shapes.rs"]
#[allow(dead_code)]
mod stubs;

mod ours;

use geometry::primitives::Point;
use geometry::shapes::{Circle, Rectangle};
use geometry::traits::DiagramShape;

fn main() {
    for line in std::io::stdin().lines() {
        let v: Vec<f64> = line.unwrap().split(' ').map(|w| w.parse().unwrap()).collect();
        let container = Rectangle::new(Point::new(v[0], v[1]), v[2], v[3]);
        let circles: Vec<Circle> = v[4..].chunks(3).map(|h| Circle::new(Point::new(h[0], h[1]), h[2])).collect();
        let areas = Circle::compute_exclusive_regions_clipped(&circles, &container).unwrap();
        let mut rows: Vec<(usize, f64)> = areas.into_iter().collect();
        rows.sort_by_key(|&(mask, _)| (mask.count_ones(), mask));
        for (mask, area) in rows {
            // our clamp writes -0 as +0 (docs/DIFFERENCES.md)
            println!("{mask:03X} {:016X}", (if area == 0.0 { 0.0 } else { area }).to_bits());
        }
        println!();
    }
}
