//! What the given text of strokes names; of this only `Scanline`, which is given, is run.

mod line_join;
mod linear_equation;
mod scanline;

pub use line_join::LineJoin;
pub use linear_equation::LinearEquation;
pub use scanline::Scanline;

use crate::{geometry::Point, primitives::Rectangle};

#[derive(Copy, Clone, Eq, PartialEq, Ord, PartialOrd, Hash, Debug)]
pub enum LineSide {
    Left,
    Right,
}

impl LineSide {
    pub fn swap(self) -> Self {
        unimplemented!()
    }
}

#[derive(Copy, Clone, Eq, PartialEq, Ord, PartialOrd, Hash, Debug)]
pub enum StrokeOffset {
    None,
    Left,
    Right,
}

#[derive(Copy, Clone, Eq, PartialEq, Ord, PartialOrd, Hash, Debug)]
pub enum PointType {
    Stroke,
    Fill,
}

pub struct ThickSegment;

impl ThickSegment {
    pub fn new(_: LineJoin, _: LineJoin) -> Self {
        unimplemented!()
    }

    pub fn intersection(&self, _: i32) -> Scanline {
        unimplemented!()
    }
}

pub struct DistanceIterator;

impl DistanceIterator {
    pub fn new(_: Point, _: &Rectangle) -> Self {
        unimplemented!()
    }
}
