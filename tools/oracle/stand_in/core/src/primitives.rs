//! Rectangles, which the given text uses as bounding boxes, and the trait that lists a figure's points.
//! `Rectangle::contains` is not here: its text is given.

use crate::geometry::Point;

pub use rectangle::Rectangle;

pub trait PointsIter {
    type Iter: Iterator<Item = Point>;

    fn points(&self) -> Self::Iter;
}

pub mod rectangle {
    use crate::geometry::{Dimensions, Point, Size};
    use core::ops::Range;

    #[derive(Copy, Clone, Eq, PartialEq, Ord, PartialOrd, Hash, Debug, Default)]
    pub struct Rectangle {
        pub top_left: Point,
        pub size: Size,
    }

    pub struct Points;

    impl Rectangle {
        // BEHAVES
        pub const fn new(top_left: Point, size: Size) -> Self {
            Rectangle { top_left, size }
        }

        // BEHAVES: the smallest rectangle that holds both places.
        pub fn with_corners(a: Point, b: Point) -> Self {
            Rectangle { top_left: Point::new(a.x.min(b.x), a.y.min(b.y)), size: Size::new(a.x.abs_diff(b.x) + 1, a.y.abs_diff(b.y) + 1) }
        }

        // BEHAVES: the last place inside, or none of an empty rectangle.
        pub fn bottom_right(&self) -> Option<Point> {
            if self.size.width > 0 && self.size.height > 0 {
                Some(self.top_left + self.size - Point::new(1, 1))
            } else {
                None
            }
        }

        // BEHAVES
        pub fn rows(&self) -> Range<i32> {
            self.top_left.y..self.top_left.y.saturating_add_unsigned(self.size.height)
        }

        // BEHAVES
        pub fn columns(&self) -> Range<i32> {
            self.top_left.x..self.top_left.x.saturating_add_unsigned(self.size.width)
        }

        pub const fn with_center(_: Point, _: Size) -> Self {
            unimplemented!()
        }

        pub fn center(&self) -> Point {
            unimplemented!()
        }
    }

    impl Dimensions for Rectangle {
        fn bounding_box(&self) -> Rectangle {
            *self
        }
    }
}
