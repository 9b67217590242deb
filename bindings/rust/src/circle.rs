use crate::{FilledPoints, Point, Rectangle, Refusal, filled::Figure, library};
use core::ops::Range;

/// A filled circle, by its box.
///
/// ```
/// use beamacorn::{Circle, Point};
///
/// let circle = Circle::new(Point::new(0, 0), 3);
/// assert_eq!(circle.contains(Point::new(0, 0)), Ok(false));
/// assert_eq!(circle.row_span(0), Ok(1..2));
/// assert_eq!(circle.row_span(1), Ok(0..3));
/// assert_eq!(circle.rows(), Ok(0..3));
/// assert!(circle.points()?.eq([(1, 0), (0, 1), (1, 1), (2, 1), (1, 2)].map(Point::from)));
/// # Ok::<(), beamacorn::Refusal>(())
/// ```
#[derive(Clone, Copy, Debug, Default, Eq, Hash, PartialEq)]
pub struct Circle {
    /// The top-left corner of its box.
    pub top_left: Point,
    /// The side of its box. A circle of diameter 0 contains nothing.
    pub diameter: u32,
}

impl Circle {
    /// The circle whose box has the top-left corner and the side `diameter`.
    pub const fn new(top_left: Point, diameter: u32) -> Self {
        Circle { top_left, diameter }
    }

    /// The circle of that diameter around a pixel. An even diameter has four pixels in the middle: the centre is then the upper left of them. The corner is a
    /// difference that stops at the ends of `i32`, as those of [points](Point) do.
    ///
    /// ```
    /// use beamacorn::{Circle, Point};
    ///
    /// assert_eq!(Circle::with_center(Point::new(10, 20), 5), Circle::new(Point::new(8, 18), 5));
    /// assert_eq!(Circle::with_center(Point::new(10, 20), 6), Circle::new(Point::new(8, 18), 6));
    /// ```
    pub const fn with_center(center: Point, diameter: u32) -> Self {
        let before = before_center(diameter);
        let top_left = Point::new(center.x.saturating_sub_unsigned(before), center.y.saturating_sub_unsigned(before));
        Circle { top_left, diameter }
    }

    /// The pixel in the middle; of an even diameter, which has four there, the upper left. Of diameter 0 it is the corner. It has an answer whether the circle is
    /// accepted or not, and stops at the ends of `i32`.
    ///
    /// ```
    /// use beamacorn::{Circle, Point};
    ///
    /// for diameter in 0..9 {
    ///     assert_eq!(Circle::with_center(Point::new(10, 20), diameter).center(), Point::new(10, 20));
    /// }
    /// ```
    pub const fn center(&self) -> Point {
        let before = before_center(self.diameter);
        Point::new(self.top_left.x.saturating_add_unsigned(before), self.top_left.y.saturating_add_unsigned(before))
    }

    /// Whether the circle contains the pixel.
    ///
    /// # Errors
    ///
    /// [`Refusal::OUT_OF_BOUNDS`] if the corner is out of range, [`Refusal::CIRCLE_TOO_FAR`] if the box ends past 131,072.
    pub fn contains(&self, point: Point) -> Result<bool, Refusal> {
        let Circle { top_left, diameter } = *self;
        library::beamacorn_circle_contains(top_left.x, top_left.y, diameter, point.x, point.y).answer()
    }

    /// The columns of row `y` that the circle contains: `0..0` for a row outside its box.
    ///
    /// # Errors
    ///
    /// [`Refusal::OUT_OF_BOUNDS`] if the corner is out of range, [`Refusal::CIRCLE_TOO_FAR`] if the box ends past 131,072.
    pub fn row_span(&self, y: i32) -> Result<Range<i32>, Refusal> {
        let Circle { top_left, diameter } = *self;
        library::beamacorn_circle_row_span(top_left.x, top_left.y, diameter, y).answer()
    }

    /// The rows of the circle, from its first to one past its last: those of its box. Each has a pixel.
    ///
    /// # Errors
    ///
    /// [`Refusal::OUT_OF_BOUNDS`] if the corner is out of range, [`Refusal::CIRCLE_TOO_FAR`] if the box ends past 131,072.
    pub fn rows(&self) -> Result<Range<i32>, Refusal> {
        Ok(self.bounding_box()?.rows())
    }

    /// The pixels, row by row.
    ///
    /// # Errors
    ///
    /// [`Refusal::OUT_OF_BOUNDS`] if the corner is out of range, [`Refusal::CIRCLE_TOO_FAR`] if the box ends past 131,072.
    pub fn points(&self) -> Result<FilledPoints, Refusal> {
        Ok(FilledPoints::new(Figure::Circle(*self), self.rows()?))
    }

    /// The box that the circle is given by.
    ///
    /// # Errors
    ///
    /// [`Refusal::OUT_OF_BOUNDS`] if the corner is out of range, [`Refusal::CIRCLE_TOO_FAR`] if the box ends past 131,072.
    pub fn bounding_box(&self) -> Result<Rectangle, Refusal> {
        let Circle { top_left: Point { x, y }, diameter } = *self;
        // Any row is refused if the circle is; an accepted one has its ends in an `i32`.
        self.row_span(y)?;
        Ok(Rectangle::spanning(x..x.saturating_add_unsigned(diameter), y..y.saturating_add_unsigned(diameter)))
    }

    /// The same circle moved.
    #[must_use]
    pub fn translate(&self, by: Point) -> Self {
        Circle { top_left: self.top_left + by, ..*self }
    }
}

/// How many columns, or rows, of a circle's box lie before its centre.
const fn before_center(diameter: u32) -> u32 {
    diameter.saturating_sub(1) / 2
}
