//! The way in to what `circle` keeps to itself: the given text declares this file as its child.

use super::{points::Scanlines, Circle};
use core::ops::Range;

pub struct StyledPixelsIterator;

impl Circle {
    /// The rows of `Scanlines`, each with its columns.
    pub fn row_spans(&self) -> impl Iterator<Item = (i32, Range<i32>)> {
        Scanlines::new(self).map(|scanline| (scanline.y, scanline.x))
    }
}
