use crate::Point;
use core::ops::Range;

/// A width and a height in pixels.
#[derive(Clone, Copy, Debug, Default, Eq, Hash, PartialEq)]
pub struct Size {
    /// How many columns.
    pub width: u32,
    /// How many rows.
    pub height: u32,
}

/// The box of a figure: the smallest that has all its pixels, for a circle the one that it is given by.
///
/// ```
/// use beamacorn::{Circle, Point};
///
/// let round = Circle::new(Point::new(-2, 5), 3).bounding_box()?;
/// assert_eq!((round.columns(), round.rows()), (-2..1, 5..8));
/// # Ok::<(), beamacorn::Refusal>(())
/// ```
#[derive(Clone, Copy, Debug, Default, Eq, Hash, PartialEq)]
pub struct Rectangle {
    /// The top-left corner.
    pub top_left: Point,
    /// How many columns and rows it has.
    pub size: Size,
}

impl Rectangle {
    /// The box from some columns and rows. They are those of an accepted figure, so that no difference is above 262,144.
    pub(crate) fn spanning(columns: Range<i32>, rows: Range<i32>) -> Self {
        let size = Size { width: columns.end.abs_diff(columns.start), height: rows.end.abs_diff(rows.start) };
        Rectangle { top_left: Point::new(columns.start, rows.start), size }
    }

    /// Its columns, from the first to one past the last.
    pub fn columns(&self) -> Range<i32> {
        self.top_left.x..self.top_left.x.saturating_add_unsigned(self.size.width)
    }

    /// Its rows, from the first to one past the last.
    pub fn rows(&self) -> Range<i32> {
        self.top_left.y..self.top_left.y.saturating_add_unsigned(self.size.height)
    }
}
