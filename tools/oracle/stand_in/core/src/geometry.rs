//! Points and sizes, with the plain `i32` and `u32` arithmetic that the given text expects of them:
//! it panics on overflow in a debug build and wraps in a release build.

use crate::primitives::Rectangle;
use core::ops::{Add, AddAssign, Div, Mul, Neg, Sub, SubAssign};

#[derive(Copy, Clone, Eq, PartialEq, Ord, PartialOrd, Hash, Debug, Default)]
pub struct Point {
    pub x: i32,
    pub y: i32,
}

impl Point {
    // BEHAVES
    pub const fn new(x: i32, y: i32) -> Self {
        Point { x, y }
    }

    // BEHAVES
    pub const fn zero() -> Self {
        Point::new(0, 0)
    }

    // BEHAVES: the part of a step that lies along x.
    pub const fn x_axis(self) -> Self {
        Point::new(self.x, 0)
    }

    // BEHAVES: the part of a step that lies along y.
    pub const fn y_axis(self) -> Self {
        Point::new(0, self.y)
    }

    // BEHAVES: each coordinate without its sign.
    pub const fn abs(self) -> Self {
        Point::new(self.x.abs(), self.y.abs())
    }
}

// BEHAVES
impl Add for Point {
    type Output = Point;

    fn add(self, other: Point) -> Point {
        Point::new(self.x + other.x, self.y + other.y)
    }
}

// BEHAVES
impl Sub for Point {
    type Output = Point;

    fn sub(self, other: Point) -> Point {
        Point::new(self.x - other.x, self.y - other.y)
    }
}

// BEHAVES
impl Add<Size> for Point {
    type Output = Point;

    fn add(self, size: Size) -> Point {
        Point::new(self.x + size.width as i32, self.y + size.height as i32)
    }
}

// BEHAVES
impl Mul<i32> for Point {
    type Output = Point;

    fn mul(self, factor: i32) -> Point {
        Point::new(self.x * factor, self.y * factor)
    }
}

impl Div<i32> for Point {
    type Output = Point;

    fn div(self, _: i32) -> Point {
        unimplemented!()
    }
}

impl Neg for Point {
    type Output = Point;

    fn neg(self) -> Point {
        unimplemented!()
    }
}

// BEHAVES
impl AddAssign for Point {
    fn add_assign(&mut self, other: Point) {
        *self = *self + other;
    }
}

// BEHAVES
impl SubAssign for Point {
    fn sub_assign(&mut self, other: Point) {
        *self = *self - other;
    }
}

#[derive(Copy, Clone, Eq, PartialEq, Ord, PartialOrd, Hash, Debug, Default)]
pub struct Size {
    pub width: u32,
    pub height: u32,
}

impl Size {
    // BEHAVES
    pub const fn new(width: u32, height: u32) -> Self {
        Size { width, height }
    }

    // BEHAVES
    pub const fn new_equal(side: u32) -> Self {
        Size::new(side, side)
    }

    pub fn saturating_add(self, _: Size) -> Size {
        unimplemented!()
    }

    pub fn saturating_sub(self, _: Size) -> Size {
        unimplemented!()
    }
}

pub trait Dimensions {
    fn bounding_box(&self) -> Rectangle;
}

pub trait OriginDimensions {
    fn size(&self) -> Size;
}

impl<T: OriginDimensions> Dimensions for T {
    fn bounding_box(&self) -> Rectangle {
        unimplemented!()
    }
}

pub enum AnchorPoint {}

pub enum AnchorX {}

pub enum AnchorY {}
