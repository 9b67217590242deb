use crate::{Circle, Point, Refusal, Triangle};

/// A figure that contains pixels, or is refused.
///
/// ```
/// use beamacorn::{Circle, ContainsPoint, Point, Refusal, Triangle};
///
/// /// How many of the places a figure contains.
/// fn count(figure: &impl ContainsPoint, places: &[Point]) -> Result<usize, Refusal> {
///     let mut inside = 0;
///     for &place in places {
///         inside += usize::from(figure.contains(place)?);
///     }
///     Ok(inside)
/// }
///
/// let places = [(0, 0), (1, 0), (2, 2)].map(Point::from);
/// assert_eq!(count(&Circle::new(Point::new(0, 0), 3), &places), Ok(1));
/// assert_eq!(count(&Triangle::new(places[0], places[1], places[2]), &places), Ok(3));
/// assert_eq!(count(&Circle::new(Point::new(131_072, 0), 3), &places), Err(Refusal::OUT_OF_BOUNDS));
/// ```
pub trait ContainsPoint {
    /// Whether the figure contains the pixel.
    ///
    /// # Errors
    ///
    /// A figure out of range is refused: neither yes nor no.
    fn contains(&self, point: Point) -> Result<bool, Refusal>;
}

impl ContainsPoint for Triangle {
    fn contains(&self, point: Point) -> Result<bool, Refusal> {
        Triangle::contains(self, point)
    }
}

impl ContainsPoint for Circle {
    fn contains(&self, point: Point) -> Result<bool, Refusal> {
        Circle::contains(self, point)
    }
}
