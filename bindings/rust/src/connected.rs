use crate::{Line, Point, Points, Rectangle, Refusal, library, points::Walked};

/// A line of pixels without diagonal gaps: the points of the [`Line`], and an extra one between two of them that touch at a corner only.
///
/// The extra point is the pixel on the right of the line, seen from its start to its end, that shares an edge with both. So each point shares an edge
/// with the next, and a colour that is flooded from pixel to pixel, over corners too, finds no gap between them.
///
/// ```
/// use beamacorn::{ConnectedLine, Point};
///
/// let trace = ConnectedLine::new(Point::new(0, 0), Point::new(2, 1));
/// assert_eq!(trace.length(), Ok(4));
/// assert_eq!(trace.point(2), Ok(Point::new(1, 1)));
/// assert_eq!(trace.has_point(Point::new(1, 1)), Ok(true));
/// assert!(trace.points()?.eq([(0, 0), (1, 0), (1, 1), (2, 1)].map(Point::from)));
/// # Ok::<(), beamacorn::Refusal>(())
/// ```
///
/// From the other end the right side is the other one:
///
/// ```
/// # use beamacorn::{ConnectedLine, Point};
/// let back = ConnectedLine::new(Point::new(2, 1), Point::new(0, 0));
/// assert!(back.points()?.eq([(2, 1), (1, 1), (1, 0), (0, 0)].map(Point::from)));
/// # Ok::<(), beamacorn::Refusal>(())
/// ```
#[derive(Clone, Copy, Debug, Default, Eq, Hash, PartialEq)]
pub struct ConnectedLine {
    /// The first point.
    pub start: Point,
    /// The last point.
    pub end: Point,
}

impl ConnectedLine {
    /// The connected line from `start` to `end`.
    pub const fn new(start: Point, end: Point) -> Self {
        ConnectedLine { start, end }
    }

    /// How many points it has: one more than its width and its height together.
    ///
    /// # Errors
    ///
    /// [`Refusal::OUT_OF_BOUNDS`] if an end is out of range.
    pub fn length(&self) -> Result<u32, Refusal> {
        let ConnectedLine { start, end } = self;
        library::beamacorn_connected_length(start.x, start.y, end.x, end.y).answer()
    }

    /// The point at an index: index 0 is the start, and an extra point comes between its neighbours. An index past the end is refused. The cost does not
    /// grow with the line.
    ///
    /// ```
    /// use beamacorn::{ConnectedLine, Point, Refusal};
    ///
    /// let steep = ConnectedLine::new(Point::new(3, 3), Point::new(2, 0));
    /// assert_eq!(steep.point(2), Ok(Point::new(3, 1)));
    /// assert_eq!(steep.point(5), Err(Refusal::PAST_LAST_STEP));
    /// ```
    ///
    /// # Errors
    ///
    /// [`Refusal::OUT_OF_BOUNDS`] if an end is out of range, else [`Refusal::PAST_LAST_STEP`] if the index is none of the line's.
    pub fn point(&self, index: u32) -> Result<Point, Refusal> {
        let ConnectedLine { start, end } = self;
        library::beamacorn_connected_point(start.x, start.y, end.x, end.y, index).answer()
    }

    /// Whether the pixel is one of its points. The cost does not grow with the line.
    ///
    /// # Errors
    ///
    /// [`Refusal::OUT_OF_BOUNDS`] if an end is out of range.
    pub fn has_point(&self, point: Point) -> Result<bool, Refusal> {
        let ConnectedLine { start, end } = self;
        library::beamacorn_connected_has_point(start.x, start.y, end.x, end.y, point.x, point.y).answer()
    }

    /// The points, from the start to the end.
    ///
    /// # Errors
    ///
    /// [`Refusal::OUT_OF_BOUNDS`] if an end is out of range.
    pub fn points(&self) -> Result<Points, Refusal> {
        Ok(Points::new(Walked::Connected(*self), self.length()?))
    }

    /// The smallest box that has all its points: that of the [`Line`], as an extra point has its column from one neighbour and its row from the other.
    ///
    /// # Errors
    ///
    /// [`Refusal::OUT_OF_BOUNDS`] if an end is out of range.
    pub fn bounding_box(&self) -> Result<Rectangle, Refusal> {
        Line::new(self.start, self.end).bounding_box()
    }

    /// The same connected line moved.
    #[must_use]
    pub fn translate(&self, by: Point) -> Self {
        ConnectedLine { start: self.start + by, end: self.end + by }
    }
}
