//! Stands in for the crate embedded-graphics-core: only what the given text names of it.
//! `BEHAVES` marks what the oracle's answers rest on; all else only lets the text compile and is never run.

pub mod draw_target;
pub mod geometry;
pub mod pixelcolor;
pub mod primitives;

#[derive(Debug, Clone, Copy, PartialEq, Eq)]
pub struct Pixel<C>(pub geometry::Point, pub C);

pub trait Drawable {}
