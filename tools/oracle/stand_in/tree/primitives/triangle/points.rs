//! The points of a filled triangle, whose text is not given: never run.

use crate::{geometry::Point, primitives::Triangle};

pub struct Points;

impl Points {
    pub fn new(_: &Triangle) -> Self {
        unimplemented!()
    }
}

impl Iterator for Points {
    type Item = Point;

    fn next(&mut self) -> Option<Point> {
        unimplemented!()
    }
}
