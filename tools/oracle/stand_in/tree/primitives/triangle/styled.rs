//! The way in to what `triangle` keeps to itself: the given text declares this file as its child.

use super::scanline_iterator::ScanlineIterator;
use crate::primitives::Triangle;
use core::ops::Range;

pub struct StyledPixelsIterator {
    _rows: ScanlineIterator,
}

impl Triangle {
    /// The columns that `scanline_intersection` gives for a row.
    pub fn row_span(&self, y: i32) -> Range<i32> {
        self.scanline_intersection(y).x
    }

    /// The vertices in the order of `sorted_yx`.
    pub fn sorted_vertices(&self) -> [crate::geometry::Point; 3] {
        self.sorted_yx().vertices
    }
}
