use core::ops::{Add, AddAssign, Mul, Neg, Sub, SubAssign};

/// A pixel's place: x grows to the right, y downwards. Places are ordered by x, then by y.
///
/// ```
/// use beamacorn::Point;
///
/// assert_eq!(Point::new(3, -4), Point { x: 3, y: -4 });
/// assert_eq!(Point::from((3, -4)), Point::from([3, -4]));
/// assert_eq!(<(i32, i32)>::from(Point::new(3, -4)), (3, -4));
/// assert_eq!(<[i32; 2]>::from(Point::new(3, -4)), [3, -4]);
/// assert!(Point::new(1, 9) < Point::new(2, 0));
/// ```
///
/// Sums, differences, multiples and the negative of a place are taken by coordinate and stop at the ends of `i32`: they neither wrap nor panic. No figure that
/// is accepted comes near the ends, so that a place past an end and the end itself have the same answers.
///
/// ```
/// # use beamacorn::Point;
/// assert_eq!(Point::new(3, -4) + Point::new(1, 1) - Point::new(0, 7), Point::new(4, -10));
/// assert_eq!(-Point::new(3, -4) * 2, Point::new(-6, 8));
/// let mut place = Point::zero();
/// place += Point::new(5, 5);
/// place -= Point::new(0, 1);
/// assert_eq!(place, Point::new(5, 4));
///
/// assert_eq!(Point::new(i32::MAX, 0) + Point::new(1, 0), Point::new(i32::MAX, 0));
/// assert_eq!(-Point::new(i32::MIN, 0), Point::new(i32::MAX, 0));
/// assert_eq!(Point::new(-70_000, 1) * 70_000, Point::new(i32::MIN, 70_000));
/// ```
#[derive(Clone, Copy, Debug, Default, Eq, Hash, Ord, PartialEq, PartialOrd)]
pub struct Point {
    /// The column.
    pub x: i32,
    /// The row.
    pub y: i32,
}

impl Point {
    /// The place in column `x` and row `y`.
    pub const fn new(x: i32, y: i32) -> Self {
        Point { x, y }
    }

    /// The place in column 0 and row 0.
    pub const fn zero() -> Self {
        Point::new(0, 0)
    }
}

impl From<(i32, i32)> for Point {
    fn from((x, y): (i32, i32)) -> Self {
        Point { x, y }
    }
}

impl From<[i32; 2]> for Point {
    fn from([x, y]: [i32; 2]) -> Self {
        Point { x, y }
    }
}

impl From<Point> for (i32, i32) {
    fn from(Point { x, y }: Point) -> Self {
        (x, y)
    }
}

impl From<Point> for [i32; 2] {
    fn from(Point { x, y }: Point) -> Self {
        [x, y]
    }
}

impl Add for Point {
    type Output = Point;

    fn add(self, other: Point) -> Point {
        Point::new(self.x.saturating_add(other.x), self.y.saturating_add(other.y))
    }
}

impl Sub for Point {
    type Output = Point;

    fn sub(self, other: Point) -> Point {
        Point::new(self.x.saturating_sub(other.x), self.y.saturating_sub(other.y))
    }
}

impl AddAssign for Point {
    fn add_assign(&mut self, other: Point) {
        *self = *self + other;
    }
}

impl SubAssign for Point {
    fn sub_assign(&mut self, other: Point) {
        *self = *self - other;
    }
}

impl Mul<i32> for Point {
    type Output = Point;

    fn mul(self, factor: i32) -> Point {
        Point::new(self.x.saturating_mul(factor), self.y.saturating_mul(factor))
    }
}

impl Neg for Point {
    type Output = Point;

    fn neg(self) -> Point {
        Point::new(self.x.saturating_neg(), self.y.saturating_neg())
    }
}
