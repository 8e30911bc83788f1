// Stands for the Rust's other shapes and for homogeneous points, which circles do without. Nothing here is ever run.

use crate::geometry::primitives::Point;

pub struct HomogeneousPoint;

impl HomogeneousPoint {
    pub fn from_euclidean(_p: Point) -> Self {
        unimplemented!()
    }

    pub fn x(&self) -> f64 {
        unimplemented!()
    }

    pub fn y(&self) -> f64 {
        unimplemented!()
    }

    pub fn w(&self) -> f64 {
        unimplemented!()
    }
}

pub struct Ellipse;

impl Ellipse {
    pub fn center(&self) -> Point {
        unimplemented!()
    }

    pub fn rotation(&self) -> f64 {
        unimplemented!()
    }
}

pub struct Polygon;

impl Polygon {
    pub fn new(_vertices: Vec<Point>) -> Self {
        unimplemented!()
    }
}
