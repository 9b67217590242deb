//! The same inputs for both sides, from one fixed seed.

use crate::ours::Place;
use embedded_graphics::{geometry::Point, primitives::Triangle};

pub type Vertices = [Place; 3];

pub struct Inputs(u64);

impl Inputs {
    pub fn new() -> Self {
        Inputs(1)
    }

    /// Places whose coordinates lie from first to last and that are wanted.
    pub fn pixels(&mut self, count: usize, (first, last): Place, wanted: impl Fn(Point) -> bool) -> Vec<Place> {
        let mut places = Vec::with_capacity(count);
        while places.len() < count {
            let place = (self.number(first, last), self.number(first, last));
            if wanted(point(place)) {
                places.push(place);
            }
        }
        places
    }

    fn number(&mut self, first: i32, last: i32) -> i32 {
        // Knuth's MMIX generator; its high bits are the good ones.
        self.0 = self.0.wrapping_mul(6_364_136_223_846_793_005).wrapping_add(1_442_695_040_888_963_407);
        first + ((self.0 >> 33) % (last - first + 1) as u64) as i32
    }
}

pub fn triangle([v1, v2, v3]: Vertices) -> Triangle {
    Triangle::new(point(v1), point(v2), point(v3))
}

pub fn point((x, y): Place) -> Point {
    Point::new(x, y)
}
