//! The frame of 2,048 by 2,048 pixels that all is drawn on, its colour, and what must be painted there.

use crate::{
    inputs::{triangle, Vertices},
    ours::{row_bytes, Frame},
};
use embedded_graphics::geometry::Dimensions;
use std::ops::Range;

pub const SIDE: usize = 2_048;

/// A row and the columns of it.
pub type Row = (i32, Range<i32>);

pub fn new_frame(depth: u32) -> Frame {
    Frame::new(SIDE as u32, SIDE as u32, depth)
}

/// A colour whose bits are not all alike where the depth allows it.
pub fn colour(depth: u32) -> u32 {
    0xa5c3_96a5 >> (32 - depth)
}

/// The rows of a triangle, as the Rust has them.
pub fn rows(vertices: Vertices) -> Vec<Row> {
    let triangle = triangle(vertices);
    triangle.bounding_box().rows().map(|y| (y, triangle.row_span(y))).collect()
}

/// The bytes of the frame that hold pixels of the rows' spans.
pub fn parts_of(rows: Vec<Row>, depth: u32) -> Vec<Range<usize>> {
    let (row_bytes, depth) = (row_bytes(SIDE as u32, depth), depth as usize);
    let part = |(y, span): Row| {
        let row = y as usize * row_bytes;
        row + span.start as usize * depth / 8..row + (span.end as usize * depth).div_ceil(8)
    };
    rows.into_iter().map(part).collect()
}

pub fn bytes_in(parts: &[Range<usize>]) -> usize {
    parts.iter().map(ExactSizeIterator::len).sum()
}

/// Holds a frame that was zero to what was to be painted: these bytes, with whole pixels of our colour.
pub fn hold(frame: &Frame, parts: &[Range<usize>], depth: u32) {
    let pixels = whole_pixels(depth);
    let mut expected = vec![0; frame.bytes.len()];
    for part in parts {
        for (byte, value) in expected[part.clone()].iter_mut().zip(pixels.iter().cycle()) {
            *byte = *value;
        }
    }
    assert!(frame.bytes == expected, "depth {depth}: our library painted something else");
}

/// How many pixels of these bytes are not zero.
pub fn painted(bytes: &[u8], depth: u32) -> usize {
    if depth == 1 {
        return bytes.iter().map(|byte| byte.count_ones() as usize).sum();
    }
    assert!(depth >= 8, "pixels of depth {depth} are not counted");
    bytes.chunks(depth as usize / 8).filter(|pixel| pixel.iter().any(|byte| *byte != 0)).count()
}

/// The bytes of as few whole pixels of our colour as fill whole bytes.
fn whole_pixels(depth: u32) -> Vec<u8> {
    if depth >= 8 {
        return colour(depth).to_le_bytes()[..depth as usize / 8].to_vec();
    }
    let byte = (0..8 / depth).fold(0, |byte, place| byte | colour(depth) << (place * depth));
    vec![byte as u8]
}
