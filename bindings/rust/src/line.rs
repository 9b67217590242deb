use crate::{Point, Points, Rectangle, Refusal, library, points::Walked};

/// A line of pixels from its start to its end.
///
/// Which pixels it has depends on the end that it starts from: halfway between two pixels it takes the one nearer to its start.
///
/// ```
/// use beamacorn::{Line, Point};
///
/// let line = Line::new(Point::new(0, 0), Point::new(2, 1));
/// assert_eq!(line.length(), Ok(3));
/// assert_eq!(line.point(1), Ok(Point::new(1, 0)));
/// assert_eq!(line.has_point(Point::new(1, 1)), Ok(false));
/// assert!(line.points()?.eq([Point::new(0, 0), Point::new(1, 0), Point::new(2, 1)]));
/// # Ok::<(), beamacorn::Refusal>(())
/// ```
#[derive(Clone, Copy, Debug, Default, Eq, Hash, PartialEq)]
pub struct Line {
    /// The first point.
    pub start: Point,
    /// The last point.
    pub end: Point,
}

impl Line {
    /// The line from `start` to `end`.
    pub const fn new(start: Point, end: Point) -> Self {
        Line { start, end }
    }

    /// The line from `start` to `start + delta`, a sum that stops at the ends of `i32`, as those of [points](Point) do.
    ///
    /// ```
    /// use beamacorn::{Line, Point};
    ///
    /// let line = Line::with_delta(Point::new(10, 20), Point::new(20, -20));
    /// assert_eq!(line, Line::new(Point::new(10, 20), Point::new(30, 0)));
    /// ```
    pub const fn with_delta(start: Point, delta: Point) -> Self {
        // The operator is no constant function.
        let end = Point::new(start.x.saturating_add(delta.x), start.y.saturating_add(delta.y));
        Line { start, end }
    }

    /// The place halfway from the start to the end; of two that are, the one nearer to the start, column and row each by itself. It need not be a point of the
    /// line, and has an answer whether the line is accepted or not.
    ///
    /// ```
    /// use beamacorn::{Line, Point};
    ///
    /// let line = Line::new(Point::new(0, 0), Point::new(5, -3));
    /// assert_eq!(line.midpoint(), Point::new(2, -1));
    /// assert_eq!(Line::new(line.end, line.start).midpoint(), Point::new(3, -2));
    /// ```
    pub const fn midpoint(&self) -> Point {
        Point::new(halfway(self.start.x, self.end.x), halfway(self.start.y, self.end.y))
    }

    /// How many points the line has: one more than the larger of its width and its height.
    ///
    /// # Errors
    ///
    /// [`Refusal::OUT_OF_BOUNDS`] if an end is out of range.
    pub fn length(&self) -> Result<u32, Refusal> {
        let Line { start, end } = self;
        library::beamacorn_line_length(start.x, start.y, end.x, end.y).answer()
    }

    /// The point at a step: step 0 is the start. A step past the end is refused.
    ///
    /// ```
    /// use beamacorn::{Line, Point, Refusal};
    ///
    /// let dot = Line::new(Point::new(7, 7), Point::new(7, 7));
    /// assert_eq!(dot.point(0), Ok(Point::new(7, 7)));
    /// assert_eq!(dot.point(1), Err(Refusal::PAST_LAST_STEP));
    /// ```
    ///
    /// # Errors
    ///
    /// [`Refusal::OUT_OF_BOUNDS`] if an end is out of range, else [`Refusal::PAST_LAST_STEP`] if the step is none of the line's.
    pub fn point(&self, step: u32) -> Result<Point, Refusal> {
        let Line { start, end } = self;
        library::beamacorn_line_point(start.x, start.y, end.x, end.y, step).answer()
    }

    /// Whether the pixel is a point of the line. The cost does not grow with the line.
    ///
    /// # Errors
    ///
    /// [`Refusal::OUT_OF_BOUNDS`] if an end is out of range.
    pub fn has_point(&self, point: Point) -> Result<bool, Refusal> {
        let Line { start, end } = self;
        library::beamacorn_line_has_point(start.x, start.y, end.x, end.y, point.x, point.y).answer()
    }

    /// The points, from the start to the end.
    ///
    /// # Errors
    ///
    /// [`Refusal::OUT_OF_BOUNDS`] if an end is out of range.
    pub fn points(&self) -> Result<Points, Refusal> {
        Ok(Points::new(Walked::Line(*self), self.length()?))
    }

    /// The smallest box that has all points of the line.
    ///
    /// # Errors
    ///
    /// [`Refusal::OUT_OF_BOUNDS`] if an end is out of range.
    pub fn bounding_box(&self) -> Result<Rectangle, Refusal> {
        self.length()?;
        let Line { start: a, end: b } = self;
        // An accepted end is at most 131,071, so that one past it is an `i32` too.
        let through = |from: i32, to: i32| from.min(to)..from.max(to).saturating_add(1);
        Ok(Rectangle::spanning(through(a.x, b.x), through(a.y, b.y)))
    }

    /// The same line moved.
    #[must_use]
    pub fn translate(&self, by: Point) -> Self {
        Line { start: self.start + by, end: self.end + by }
    }
}

/// The number halfway from one to another, nearer to the first: it lies between them, so that it is an `i32` too.
const fn halfway(from: i32, to: i32) -> i32 {
    (from as i64 + (to as i64 - from as i64) / 2) as i32
}
