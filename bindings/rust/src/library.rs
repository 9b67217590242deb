//! The proved library, as bindings/c/beamacorn.h declares it, and all that is unsafe in this crate. A question takes and gives numbers only, so that every
//! call of it is safe. A call on a frame is lent bytes: it is made here alone, by functions that take slices.

use crate::{Circle, ConnectedLine, Frame, Line, Point, Refusal, Triangle};
use core::ops::Range;

#[repr(C)]
pub struct Verdict {
    number: u32,
    yes: bool,
}

#[repr(C)]
pub struct Span {
    number: u32,
    start: i32,
    end: i32,
}

#[repr(C)]
pub struct Length {
    number: u32,
    points: u32,
}

#[repr(C)]
pub struct Step {
    number: u32,
    x: i32,
    y: i32,
}

#[repr(C)]
pub struct Rows {
    number: u32,
    first: i32,
    count: u32,
}

#[repr(C)]
pub struct Size {
    number: u32,
    bytes: u32,
}

#[repr(C)]
pub struct Read {
    number: u32,
    colour: u32,
}

#[repr(C)]
pub struct Drawn {
    number: u32,
    count: u32,
}

#[repr(C)]
pub struct Placed {
    number: u32,
    inside: bool,
}

#[repr(C)]
pub struct Lights {
    number: u32,
    count: u32,
}

#[rustfmt::skip]
unsafe extern "C" {
    pub safe fn beamacorn_line_length(x1: i32, y1: i32, x2: i32, y2: i32) -> Length;
    pub safe fn beamacorn_line_point(x1: i32, y1: i32, x2: i32, y2: i32, step: u32) -> Step;
    pub safe fn beamacorn_line_has_point(x1: i32, y1: i32, x2: i32, y2: i32, x: i32, y: i32) -> Verdict;
    pub safe fn beamacorn_connected_length(x1: i32, y1: i32, x2: i32, y2: i32) -> Length;
    pub safe fn beamacorn_connected_point(x1: i32, y1: i32, x2: i32, y2: i32, index: u32) -> Step;
    pub safe fn beamacorn_connected_has_point(x1: i32, y1: i32, x2: i32, y2: i32, x: i32, y: i32) -> Verdict;
    pub safe fn beamacorn_triangle_contains(x1: i32, y1: i32, x2: i32, y2: i32, x3: i32, y3: i32, x: i32, y: i32) -> Verdict;
    pub safe fn beamacorn_triangle_rows(x1: i32, y1: i32, x2: i32, y2: i32, x3: i32, y3: i32) -> Rows;
    pub safe fn beamacorn_triangle_row_span(x1: i32, y1: i32, x2: i32, y2: i32, x3: i32, y3: i32, y: i32) -> Span;
    pub safe fn beamacorn_circle_contains(left: i32, top: i32, diameter: u32, x: i32, y: i32) -> Verdict;
    pub safe fn beamacorn_circle_row_span(left: i32, top: i32, diameter: u32, y: i32) -> Span;
    pub safe fn beamacorn_frame_size(width: u32, height: u32, depth: u32, distance: u32) -> Size;
    pub safe fn beamacorn_image_size(width: u32, height: u32, depth: u32, distance: u32) -> Size;

    fn beamacorn_set_pixel(buf: *mut u8, len: usize, width: u32, height: u32, depth: u32, order: u32, distance: u32,
                           x: i32, y: i32, colour: u32) -> Placed;
    fn beamacorn_pixel(buf: *const u8, len: usize, width: u32, height: u32, depth: u32, order: u32, distance: u32,
                       x: i32, y: i32) -> Read;
    fn beamacorn_lit(buf: *const u8, len: usize, width: u32, height: u32, depth: u32, order: u32, distance: u32) -> Lights;
    fn beamacorn_fill(buf: *mut u8, len: usize, width: u32, height: u32, depth: u32, order: u32, distance: u32,
                      colour: u32) -> Drawn;
    fn beamacorn_draw_line(buf: *mut u8, len: usize, width: u32, height: u32, depth: u32, order: u32, distance: u32,
                           x1: i32, y1: i32, x2: i32, y2: i32, colour: u32) -> Drawn;
    fn beamacorn_draw_connected_line(buf: *mut u8, len: usize, width: u32, height: u32, depth: u32, order: u32, distance: u32,
                                     x1: i32, y1: i32, x2: i32, y2: i32, colour: u32) -> Drawn;
    fn beamacorn_draw_triangle(buf: *mut u8, len: usize, width: u32, height: u32, depth: u32, order: u32, distance: u32,
                               x1: i32, y1: i32, x2: i32, y2: i32, x3: i32, y3: i32, colour: u32) -> Drawn;
    fn beamacorn_draw_outline(buf: *mut u8, len: usize, width: u32, height: u32, depth: u32, order: u32, distance: u32,
                              x1: i32, y1: i32, x2: i32, y2: i32, x3: i32, y3: i32, colour: u32) -> Drawn;
    fn beamacorn_draw_circle(buf: *mut u8, len: usize, width: u32, height: u32, depth: u32, order: u32, distance: u32,
                             left: i32, top: i32, diameter: u32, colour: u32) -> Drawn;
    fn beamacorn_write_image(buf: *const u8, len: usize, width: u32, height: u32, depth: u32, order: u32, distance: u32,
                             out: *mut u8, out_len: usize) -> Size;
    fn beamacorn_read_image(buf: *mut u8, len: usize, width: u32, height: u32, depth: u32, order: u32, distance: u32,
                            file: *const u8, file_len: usize) -> u32;
}

impl Verdict {
    pub fn answer(self) -> Result<bool, Refusal> {
        Refusal::or(self.number, self.yes)
    }
}

impl Span {
    pub fn answer(self) -> Result<Range<i32>, Refusal> {
        Refusal::or(self.number, self.start..self.end)
    }
}

impl Length {
    pub fn answer(self) -> Result<u32, Refusal> {
        Refusal::or(self.number, self.points)
    }
}

impl Step {
    pub fn answer(self) -> Result<Point, Refusal> {
        Refusal::or(self.number, Point::new(self.x, self.y))
    }
}

impl Rows {
    // The last row is at most 131,071, so that one past it is an `i32` too.
    pub fn answer(self) -> Result<Range<i32>, Refusal> {
        Refusal::or(self.number, self.first..self.first.wrapping_add_unsigned(self.count))
    }
}

impl Size {
    pub fn answer(self) -> Result<usize, Refusal> {
        Refusal::or(self.number, self.bytes as usize)
    }
}

impl Read {
    pub fn answer(self) -> Result<u32, Refusal> {
        Refusal::or(self.number, self.colour)
    }
}

impl Drawn {
    pub fn answer(self) -> Result<u32, Refusal> {
        Refusal::or(self.number, self.count)
    }
}

impl Placed {
    pub fn answer(self) -> Result<bool, Refusal> {
        Refusal::or(self.number, self.inside)
    }
}

impl Lights {
    pub fn answer(self) -> Result<u32, Refusal> {
        Refusal::or(self.number, self.count)
    }
}

// ---- Calls on lent bytes ----
//
// Whatever its numbers are, a function of the library touches none but the bytes that it is lent, `len` of them from the pointer on, changes those of a `*mut`
// only, and keeps no pointer. So a call is sound where pointer and length are of one slice that is borrowed for the call, exclusively if it may be changed.
// Of two slices, one borrowed exclusively, no byte is in both. The pointer of an empty slice leads nowhere, and with the length 0 it is not followed.

pub fn set_pixel(buf: &mut [u8], frame: Frame, point: Point, colour: u32) -> Placed {
    let [width, height, depth, order, distance] = frame.numbers();
    let (at, len) = (buf.as_mut_ptr(), buf.len());
    // SAFETY: `at` and `len` are of a slice that is borrowed exclusively.
    unsafe { beamacorn_set_pixel(at, len, width, height, depth, order, distance, point.x, point.y, colour) }
}

pub fn pixel(buf: &[u8], frame: Frame, point: Point) -> Read {
    let [width, height, depth, order, distance] = frame.numbers();
    let (at, len) = (buf.as_ptr(), buf.len());
    // SAFETY: `at` and `len` are of a slice that is borrowed, and the function only reads.
    unsafe { beamacorn_pixel(at, len, width, height, depth, order, distance, point.x, point.y) }
}

pub fn lit(buf: &[u8], frame: Frame) -> Lights {
    let [width, height, depth, order, distance] = frame.numbers();
    let (at, len) = (buf.as_ptr(), buf.len());
    // SAFETY: `at` and `len` are of a slice that is borrowed, and the function only reads.
    unsafe { beamacorn_lit(at, len, width, height, depth, order, distance) }
}

pub fn fill(buf: &mut [u8], frame: Frame, colour: u32) -> Drawn {
    let [width, height, depth, order, distance] = frame.numbers();
    let (at, len) = (buf.as_mut_ptr(), buf.len());
    // SAFETY: `at` and `len` are of a slice that is borrowed exclusively.
    unsafe { beamacorn_fill(at, len, width, height, depth, order, distance, colour) }
}

pub fn draw_line(buf: &mut [u8], frame: Frame, line: Line, colour: u32) -> Drawn {
    let [width, height, depth, order, distance] = frame.numbers();
    let Line { start: a, end: b } = line;
    let (at, len) = (buf.as_mut_ptr(), buf.len());
    // SAFETY: `at` and `len` are of a slice that is borrowed exclusively.
    unsafe { beamacorn_draw_line(at, len, width, height, depth, order, distance, a.x, a.y, b.x, b.y, colour) }
}

pub fn draw_connected_line(buf: &mut [u8], frame: Frame, line: ConnectedLine, colour: u32) -> Drawn {
    let [width, height, depth, order, distance] = frame.numbers();
    let ConnectedLine { start: a, end: b } = line;
    let (at, len) = (buf.as_mut_ptr(), buf.len());
    // SAFETY: `at` and `len` are of a slice that is borrowed exclusively.
    unsafe { beamacorn_draw_connected_line(at, len, width, height, depth, order, distance, a.x, a.y, b.x, b.y, colour) }
}

pub fn draw_triangle(buf: &mut [u8], frame: Frame, triangle: Triangle, colour: u32) -> Drawn {
    let [width, height, depth, order, distance] = frame.numbers();
    let [a, b, c] = triangle.vertices;
    let (at, len) = (buf.as_mut_ptr(), buf.len());
    // SAFETY: `at` and `len` are of a slice that is borrowed exclusively.
    unsafe { beamacorn_draw_triangle(at, len, width, height, depth, order, distance, a.x, a.y, b.x, b.y, c.x, c.y, colour) }
}

pub fn draw_outline(buf: &mut [u8], frame: Frame, triangle: Triangle, colour: u32) -> Drawn {
    let [width, height, depth, order, distance] = frame.numbers();
    let [a, b, c] = triangle.vertices;
    let (at, len) = (buf.as_mut_ptr(), buf.len());
    // SAFETY: `at` and `len` are of a slice that is borrowed exclusively.
    unsafe { beamacorn_draw_outline(at, len, width, height, depth, order, distance, a.x, a.y, b.x, b.y, c.x, c.y, colour) }
}

pub fn draw_circle(buf: &mut [u8], frame: Frame, circle: Circle, colour: u32) -> Drawn {
    let [width, height, depth, order, distance] = frame.numbers();
    let Circle { top_left, diameter } = circle;
    let (at, len) = (buf.as_mut_ptr(), buf.len());
    // SAFETY: `at` and `len` are of a slice that is borrowed exclusively.
    unsafe { beamacorn_draw_circle(at, len, width, height, depth, order, distance, top_left.x, top_left.y, diameter, colour) }
}

pub fn write_image(buf: &[u8], frame: Frame, out: &mut [u8]) -> Size {
    let [width, height, depth, order, distance] = frame.numbers();
    let (at, len) = (buf.as_ptr(), buf.len());
    let (out_at, out_len) = (out.as_mut_ptr(), out.len());
    // SAFETY: `at` and `len` are of a slice that is borrowed and only read, `out_at` and `out_len` of one that is borrowed exclusively.
    unsafe { beamacorn_write_image(at, len, width, height, depth, order, distance, out_at, out_len) }
}

/// The number alone: there is no value beside it.
pub fn read_image(buf: &mut [u8], frame: Frame, file: &[u8]) -> u32 {
    let [width, height, depth, order, distance] = frame.numbers();
    let (at, len) = (buf.as_mut_ptr(), buf.len());
    let (file_at, file_len) = (file.as_ptr(), file.len());
    // SAFETY: `at` and `len` are of a slice that is borrowed exclusively, `file_at` and `file_len` of one that is borrowed and only read.
    unsafe { beamacorn_read_image(at, len, width, height, depth, order, distance, file_at, file_len) }
}
