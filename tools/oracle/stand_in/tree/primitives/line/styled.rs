//! The way in to what `line` keeps to itself: the given text declares this file as its child.

use super::{
    bresenham::{major_length, Bresenham, BresenhamParameters, BresenhamPoint},
    Line,
};
use crate::geometry::Point;

pub struct StyledPixelsIterator;

impl Line {
    /// What `next_all` hands out, up to the last normal point: `next_all` itself has no end.
    pub fn connected_points(&self) -> impl Iterator<Item = Point> {
        let parameters = BresenhamParameters::new(self);
        let mut bresenham = Bresenham::new(self.start);
        let mut normal_left = major_length(self);
        core::iter::from_fn(move || {
            if normal_left == 0 {
                return None;
            }
            Some(match bresenham.next_all(&parameters) {
                BresenhamPoint::Normal(point) => {
                    normal_left -= 1;
                    point
                }
                BresenhamPoint::Extra(point) => point,
            })
        })
    }
}
