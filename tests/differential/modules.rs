// The Rust's files as modules of a program, with the stand-ins for foreign crates.

#[allow(dead_code)]
mod constants;
#[allow(dead_code)]
mod error;
#[allow(dead_code)]
mod geometry {
    pub mod diagram;
    pub mod traits;
    pub mod operations {
        pub mod overlaps;
    }
    pub mod primitives {
        pub mod bounds;
        pub mod point;
        pub use bounds::Bounds;
        pub use point::Point;
    }
    pub mod projective {
        pub use crate::stubs::HomogeneousPoint;
    }
    pub mod shapes {
        pub mod circle;
        pub mod rectangle;
        pub use crate::stubs::{Ellipse, Polygon};
        pub use circle::Circle;
        pub use rectangle::Rectangle;
    }
}
#[allow(dead_code)]
mod spec {
    pub mod combination;
    pub use combination::Combination;
}
#[path = "stubs/shapes.rs"]
#[allow(dead_code)]
mod stubs;
