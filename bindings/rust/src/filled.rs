use crate::{Circle, Point, Triangle};
use core::{iter::FusedIterator, ops::Range};

/// The pixels of a triangle or a circle, row by row from the top, and from left to right within a row.
///
/// How many are left is known without taking them: `size_hint` and `count` are exact, and cost a question a row.
///
/// ```
/// use beamacorn::{Point, Triangle};
///
/// let wedge = Triangle::new(Point::new(0, 0), Point::new(86_400, 0), Point::new(0, 40_000));
/// let mut points = wedge.points()?;
/// points.next();
/// let left = points.size_hint().0;
/// assert_eq!(points.size_hint(), (left, Some(left)));
/// assert_eq!(points.count(), left);
/// # Ok::<(), beamacorn::Refusal>(())
/// ```
#[derive(Clone, Debug)]
pub struct FilledPoints {
    figure: Figure,
    rows: Range<i32>,
    y: i32,
    columns: Range<i32>,
}

#[derive(Clone, Debug)]
pub(crate) enum Figure {
    Triangle(Triangle),
    Circle(Circle),
}

impl FilledPoints {
    /// The pixels of a figure that is accepted, by its rows.
    pub(crate) fn new(figure: Figure, rows: Range<i32>) -> Self {
        FilledPoints { figure, rows, y: 0, columns: 0..0 }
    }

    /// The columns of a row. The figure was accepted when its rows were asked.
    fn columns(&self, y: i32) -> Option<Range<i32>> {
        let columns = match &self.figure {
            Figure::Triangle(triangle) => triangle.row_span(y),
            Figure::Circle(circle) => circle.row_span(y),
        };
        columns.ok()
    }

    /// How many pixels are left: of the largest circle more than 2 to the power of 35, which a `usize` of 32 bits does not hold.
    fn left(&self) -> u64 {
        let rows = self.rows.clone().filter_map(|y| self.columns(y));
        rows.chain([self.columns.clone()]).map(|columns| columns.len() as u64).sum()
    }
}

impl Iterator for FilledPoints {
    type Item = Point;

    fn next(&mut self) -> Option<Point> {
        loop {
            if let Some(x) = self.columns.next() {
                return Some(Point::new(x, self.y));
            }
            self.y = self.rows.next()?;
            self.columns = self.columns(self.y)?;
        }
    }

    fn size_hint(&self) -> (usize, Option<usize>) {
        let left = usize::try_from(self.left()).ok();
        (left.unwrap_or(usize::MAX), left)
    }

    fn count(self) -> usize {
        self.size_hint().0
    }
}

impl FusedIterator for FilledPoints {}
