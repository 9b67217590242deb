use crate::{FilledPoints, Point, Rectangle, Refusal, filled::Figure, library};
use core::ops::Range;

/// A triangle with its edges. The vertices may come in any order, lie on one line or coincide.
///
/// ```
/// use beamacorn::{Point, Triangle};
///
/// let triangle = Triangle::new(Point::new(0, 0), Point::new(4, 2), Point::new(2, 1));
/// assert_eq!(triangle.contains(Point::new(1, 0)), Ok(true));
/// assert_eq!(triangle.rows(), Ok(0..3));
/// assert_eq!(triangle.row_span(1), Ok(2..4));
/// ```
#[derive(Clone, Copy, Debug, Default, Eq, Hash, PartialEq)]
pub struct Triangle {
    /// The vertices.
    pub vertices: [Point; 3],
}

impl Triangle {
    /// The triangle of three vertices.
    pub const fn new(vertex1: Point, vertex2: Point, vertex3: Point) -> Self {
        Triangle { vertices: [vertex1, vertex2, vertex3] }
    }

    /// The triangle of a slice of three vertices; none of a slice of another length.
    ///
    /// ```
    /// use beamacorn::{Point, Triangle};
    ///
    /// let places = [(0, 0), (4, 2), (2, 1)].map(Point::from);
    /// assert_eq!(Triangle::from_slice(&places), Some(Triangle::from(places)));
    /// assert_eq!(Triangle::from_slice(&places[1..]), None);
    /// ```
    pub fn from_slice(vertices: &[Point]) -> Option<Self> {
        Some(Triangle { vertices: vertices.try_into().ok()? })
    }

    /// Whether the triangle contains the pixel. The cost does not grow with the triangle.
    ///
    /// A refused triangle is an error and never a "no":
    ///
    /// ```
    /// use beamacorn::{Point, Refusal, Triangle};
    ///
    /// let wedge = Triangle::new(Point::new(0, 0), Point::new(86_400, 0), Point::new(0, 400_000));
    /// assert_eq!(wedge.contains(Point::new(1, 1)), Err(Refusal::OUT_OF_BOUNDS));
    /// ```
    ///
    /// # Errors
    ///
    /// [`Refusal::OUT_OF_BOUNDS`] if a vertex is out of range.
    pub fn contains(&self, point: Point) -> Result<bool, Refusal> {
        let [a, b, c] = self.vertices;
        library::beamacorn_triangle_contains(a.x, a.y, b.x, b.y, c.x, c.y, point.x, point.y).answer()
    }

    /// The rows of the triangle, from its first to one past its last. Each has a pixel.
    ///
    /// # Errors
    ///
    /// [`Refusal::OUT_OF_BOUNDS`] if a vertex is out of range.
    pub fn rows(&self) -> Result<Range<i32>, Refusal> {
        let [a, b, c] = self.vertices;
        library::beamacorn_triangle_rows(a.x, a.y, b.x, b.y, c.x, c.y).answer()
    }

    /// The columns of row `y` that the triangle contains: `0..0` for a row above or below it. The cost does not grow with the triangle.
    ///
    /// # Errors
    ///
    /// [`Refusal::OUT_OF_BOUNDS`] if a vertex is out of range.
    pub fn row_span(&self, y: i32) -> Result<Range<i32>, Refusal> {
        let [a, b, c] = self.vertices;
        library::beamacorn_triangle_row_span(a.x, a.y, b.x, b.y, c.x, c.y, y).answer()
    }

    /// The pixels, row by row.
    ///
    /// ```
    /// use beamacorn::{Point, Triangle};
    ///
    /// let flat = Triangle::new(Point::new(0, 0), Point::new(4, 2), Point::new(2, 1));
    /// assert!(flat.points()?.eq([(0, 0), (1, 0), (2, 1), (3, 1), (4, 2)].map(Point::from)));
    /// # Ok::<(), beamacorn::Refusal>(())
    /// ```
    ///
    /// # Errors
    ///
    /// [`Refusal::OUT_OF_BOUNDS`] if a vertex is out of range.
    pub fn points(&self) -> Result<FilledPoints, Refusal> {
        Ok(FilledPoints::new(Figure::Triangle(*self), self.rows()?))
    }

    /// The smallest box that has all pixels of the triangle.
    ///
    /// # Errors
    ///
    /// [`Refusal::OUT_OF_BOUNDS`] if a vertex is out of range.
    pub fn bounding_box(&self) -> Result<Rectangle, Refusal> {
        let rows = self.rows()?;
        let [a, b, c] = self.vertices.map(|vertex| vertex.x);
        // An accepted vertex is at most 131,071, so that one past it is an `i32` too.
        Ok(Rectangle::spanning(a.min(b).min(c)..a.max(b).max(c).saturating_add(1), rows))
    }

    /// The same triangle moved.
    #[must_use]
    pub fn translate(&self, by: Point) -> Self {
        Triangle { vertices: self.vertices.map(|vertex| vertex + by) }
    }
}

/// ```
/// use beamacorn::{Point, Triangle};
///
/// let [a, b, c] = [(0, 0), (4, 2), (2, 1)].map(Point::from);
/// assert_eq!(Triangle::from([a, b, c]), Triangle::new(a, b, c));
/// ```
impl From<[Point; 3]> for Triangle {
    fn from(vertices: [Point; 3]) -> Self {
        Triangle { vertices }
    }
}
