//! The trait that the figures implement; never run.

use crate::geometry::Point;

pub trait Transform {
    fn translate(&self, by: Point) -> Self;

    fn translate_mut(&mut self, by: Point) -> &mut Self;
}
