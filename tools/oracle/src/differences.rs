//! The two differences in `Triangle::contains` that 01 (docs/RULES.md) names among the errors that look right, as rules:
//! for which triangle and pixel each holds, what the Rust says there and what 01 says.

use crate::figures::sorted_edges;
use embedded_graphics::{
    geometry::{Dimensions, Point},
    primitives::{ContainsPoint, Line, PointsIter, Triangle},
};

#[derive(Clone, Copy)]
pub enum Difference {
    /// No for zero area before the edges are asked.
    ZeroArea,
    /// The sign test: with s = 0, t above 0 and a negative area the Rust says yes.
    SignTest,
}

impl Difference {
    pub const ALL: [Self; 2] = [Difference::ZeroArea, Difference::SignTest];

    pub fn name(self) -> &'static str {
        match self {
            Difference::ZeroArea => "zero area",
            Difference::SignTest => "sign test",
        }
    }

    /// The difference that holds for this triangle and pixel, if any.
    pub fn named(triangle: &Triangle, p: Point) -> Option<Self> {
        let [v1, v2, v3] = triangle.vertices;
        let area = doubled_area(v1, v2, v3);
        let s = doubled_area(p, v3, v1);
        let t = doubled_area(p, v1, v2);
        if area == 0 && (s < 0) == (t < 0) {
            Some(Difference::ZeroArea)
        } else if area < 0 && s == 0 && t > 0 && triangle.bounding_box().contains(p) {
            Some(Difference::SignTest)
        } else {
            None
        }
    }

    /// What the Rust says there, always.
    pub fn by_rust(self) -> bool {
        match self {
            Difference::ZeroArea => false,
            Difference::SignTest => true,
        }
    }

    /// What 01 says there. At zero area the points of the line p1 to p3 are contained. With s = 0, t above 0 and a negative
    /// area the three doubled areas have both signs, so the points of the three sorted edges are.
    pub fn by_01(self, triangle: &Triangle, p: Point) -> bool {
        let edges @ [_, p1_to_p3, _] = sorted_edges(triangle);
        match self {
            Difference::ZeroArea => on_line(p1_to_p3, p),
            Difference::SignTest => edges.into_iter().any(|edge| on_line(edge, p)),
        }
    }
}

/// Twice the signed area, without wrap.
fn doubled_area(a: Point, b: Point, c: Point) -> i64 {
    let across = |from: i32, to: i32| i64::from(to) - i64::from(from);
    across(a.x, b.x) * across(a.y, c.y) - across(a.y, b.y) * across(a.x, c.x)
}

/// Whether a pixel is one of the points that the Rust walks from the line's start to its end.
fn on_line(line: Line, p: Point) -> bool {
    line.points().any(|point| point == p)
}
