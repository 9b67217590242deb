//! Setting pixels, lines, filling triangles, filling the frame.

use crate::{
    expected::{colour, hold, new_frame, parts_of, rows, Row, SIDE},
    inputs::{point, Inputs},
    ours::{Frame, Place},
    race::{Race, Work},
    shapes::{drawing, Ours, Shapes, HALF, LINES, ON_THE_FRAME, PIXELS},
};
use embedded_graphics::{
    framebuffer::Framebuffer,
    geometry::Point,
    pixelcolor::raw::{LittleEndian, RawData, RawU1, RawU16, RawU2, RawU24, RawU32, RawU4, RawU8},
    primitives::{Line, PointsIter},
};
use std::{hint::black_box, ops::Range, slice};

/// A frame of the Rust, of one depth.
trait Rust {
    fn set(&mut self, p: Point, colour: u32);
    fn bytes(&self) -> &[u8];
}

macro_rules! rust_frame {
    ($name:ident, $raw:ident, $depth:literal) => {
        struct $name(Framebuffer<$raw, $raw, LittleEndian, SIDE, SIDE, { SIDE * SIDE * $depth / 8 }>);

        impl Rust for $name {
            fn set(&mut self, p: Point, colour: u32) {
                self.0.set_pixel(p, $raw::new(colour as <$raw as RawData>::Storage));
            }

            fn bytes(&self) -> &[u8] {
                self.0.data()
            }
        }
    };
}

rust_frame!(Rust1, RawU1, 1);
rust_frame!(Rust2, RawU2, 2);
rust_frame!(Rust4, RawU4, 4);
rust_frame!(Rust8, RawU8, 8);
rust_frame!(Rust16, RawU16, 16);
rust_frame!(Rust24, RawU24, 24);
rust_frame!(Rust32, RawU32, 32);

pub fn races<'a>() -> Vec<Race<'a>> {
    let mut races = vec![];
    at_small_depth(&mut races, 1, || Rust1(Framebuffer::new()));
    at_small_depth(&mut races, 2, || Rust2(Framebuffer::new()));
    at_small_depth(&mut races, 4, || Rust4(Framebuffer::new()));
    at_small_depth(&mut races, 8, || Rust8(Framebuffer::new()));
    races.push(set_pixel(16, Box::new(Rust16(Framebuffer::new()))));
    races.push(set_pixel(24, Box::new(Rust24(Framebuffer::new()))));
    races.push(set_pixel(32, Box::new(Rust32(Framebuffer::new()))));
    races.push(walk_alone());
    for depth in [16, 32, 24] {
        races.push(triangle_against_memset(depth, Some(1.6)));
    }
    for (depth, goal) in [(1, 1.1), (2, 1.1), (4, 1.1), (8, 1.1), (16, 1.3), (32, 1.3), (24, 1.3)] {
        races.push(fill_against_memset(depth, goal));
    }
    races.push(level_line_against_memset());
    races.push(line_on_the_frame("a line of 2,048 points on the frame", Frame::draw_line, |line| line.points()));
    races.push(line_on_the_frame("a connected line of 2,048 steps on the frame", Frame::draw_connected_line, |line| {
        line.connected_points()
    }));
    races
}

/// The Rust sets each of the points that it hands out.
fn line_on_the_frame<'a, I: Iterator<Item = Point>>(name: &str, draw: fn(&mut Frame, Place, Place, u32), points: fn(&Line) -> I) -> Race<'a>
where
    I: 'a,
{
    let (start, end) = ((0, 100), (SIDE as i32 - 1, 803));
    let line = Line::new(point(start), point(end));
    let mut frame = new_frame(8);
    let mut rust = Box::new(Rust8(Framebuffer::new()));
    draw(&mut frame, start, end, 1);
    points(&line).for_each(|p| rust.set(p, 1));
    assert!(frame.bytes == rust.bytes(), "{name}: the sides disagree");
    Race {
        name: format!("{name}, depth 8"),
        against: "the Rust's points and `set_pixel`",
        goal: Some(1.0),
        ours: Work::new(1, move || draw(&mut frame, black_box(start), black_box(end), black_box(1))),
        other: Work::new(1, move || points(black_box(&line)).for_each(|p| rust_set_pixel(&mut *rust, p, black_box(1)))),
    }
}

fn at_small_depth<'a, R: Rust + 'a>(races: &mut Vec<Race<'a>>, depth: u32, new: fn() -> R) {
    races.push(set_pixel(depth, Box::new(new())));
    races.push(triangle_against_memset(depth, None));
    races.push(triangle_against_walk_and_memset(depth));
    races.push(triangle_against_set_pixel(depth, Box::new(new())));
}

fn set_pixel<'a, R: Rust + 'a>(depth: u32, mut rust: Box<R>) -> Race<'a> {
    let pixels = Inputs::new().pixels(PIXELS, (0, SIDE as i32 - 1), |_| true);
    let asked = pixels.clone();
    let mut frame = new_frame(depth);
    let colour = colour(depth);
    Race {
        name: format!("one `set_pixel`, depth {depth}"),
        against: "the Rust",
        goal: Some(1.6),
        ours: Work::new(PIXELS, move || pixels.iter().for_each(|p| frame.set_pixel(*p, black_box(colour)))),
        other: Work::new(PIXELS, move || asked.iter().for_each(|p| rust_set_pixel(&mut *rust, point(*p), black_box(colour)))),
    }
}

fn triangle_against_memset<'a>(depth: u32, goal: Option<f64>) -> Race<'a> {
    if depth >= 8 {
        let mut frame = new_frame(depth);
        frame.draw_triangle(HALF, colour(depth));
        hold(&frame, &parts_of(rows(HALF), depth), depth);
    }
    Race {
        name: format!("a triangle over half of the frame, depth {depth}"),
        against: "`memset` a row",
        goal,
        ours: draw_half(depth),
        other: Work::new(1, memset_a_row(depth)),
    }
}

/// What the triangle can't do without: its edges are walked, and its bytes are stored.
fn triangle_against_walk_and_memset<'a>(depth: u32) -> Race<'a> {
    let (mut walk, mut set) = (walk_beside(depth), memset_a_row(depth));
    Race {
        name: format!("a triangle over half of the frame, depth {depth}"),
        against: "the walk alone and `memset` a row",
        goal: Some(1.15),
        ours: draw_half(depth),
        other: Work::new(1, move || {
            walk();
            set();
        }),
    }
}

fn walk_alone<'a>() -> Race<'a> {
    Race {
        name: "the same triangle beside the frame, depth 1: the walk alone".into(),
        against: "`memset` a row",
        goal: None,
        ours: Work::new(1, walk_beside(1)),
        other: Work::new(1, memset_a_row(1)),
    }
}

/// The triangle beside the frame: the rows are the same, every edge is walked, and nothing is painted.
fn walk_beside(depth: u32) -> impl FnMut() {
    let beside = HALF.map(|(x, y)| (x + 2 * SIDE as i32, y));
    let mut frame = new_frame(depth);
    frame.draw_triangle(beside, colour(depth));
    hold(&frame, &[], depth);
    move || frame.draw_triangle(black_box(beside), black_box(colour(depth)))
}

/// The bytes of the triangle's rows, stored a row at a time.
fn memset_a_row(depth: u32) -> impl FnMut() {
    let mut bytes = new_frame(depth).bytes;
    let parts = parts_of(rows(HALF), depth);
    move || set_parts(&mut bytes, black_box(&parts), black_box(0xa5))
}

fn triangle_against_set_pixel<'a, R: Rust + 'a>(depth: u32, mut rust: Box<R>) -> Race<'a> {
    let (rows, colour) = (rows(HALF), colour(depth));
    let mut frame = new_frame(depth);
    frame.draw_triangle(HALF, colour);
    set_rows(&mut *rust, &rows, colour);
    assert!(frame.bytes == rust.bytes(), "depth {depth}: the sides disagree");
    Race {
        name: format!("a triangle over half of the frame, depth {depth}"),
        against: "the Rust's `set_pixel`",
        goal: Some(0.2),
        ours: draw_half(depth),
        other: Work::new(1, move || set_rows(&mut *rust, black_box(&rows), black_box(colour))),
    }
}

fn fill_against_memset<'a>(depth: u32, goal: f64) -> Race<'a> {
    let mut frame = new_frame(depth);
    let mut bytes = frame.bytes.clone();
    let colour = colour(depth);
    frame.fill(colour);
    hold(&frame, slice::from_ref(&(0..bytes.len())), depth);
    Race {
        name: format!("filling the frame, depth {depth}"),
        against: "one `memset`",
        goal: Some(goal),
        ours: Work::new(1, move || frame.fill(black_box(colour))),
        other: Work::new(1, move || set_all(&mut bytes, black_box(0xa5))),
    }
}

fn level_line_against_memset<'a>() -> Race<'a> {
    let lines = Shapes::level_lines(ON_THE_FRAME);
    let parts = parts_of((0..LINES).map(|y| (y, 0..SIDE as i32)).collect(), 8);
    hold(&Ours::having_drawn(8, &lines).frame, &parts, 8);
    let mut bytes = new_frame(8).bytes;
    Race {
        name: "a level line of 2,048 pixels, depth 8".into(),
        against: "`memset` of 2,048 bytes",
        goal: Some(2.0),
        ours: drawing(Box::new(Ours::new(8)), lines),
        other: Work::new(parts.len(), move || set_parts(&mut bytes, black_box(&parts), black_box(0xa5))),
    }
}

fn draw_half<'a>(depth: u32) -> Work<'a> {
    let mut frame = new_frame(depth);
    let colour = colour(depth);
    Work::new(1, move || frame.draw_triangle(black_box(HALF), black_box(colour)))
}

#[inline(never)]
fn rust_set_pixel<R: Rust>(rust: &mut R, p: Point, colour: u32) {
    rust.set(p, colour);
}

#[inline(never)]
fn set_rows<R: Rust>(rust: &mut R, rows: &[Row], colour: u32) {
    for (y, span) in rows {
        for x in span.clone() {
            rust.set(Point::new(x, *y), colour);
        }
    }
}

#[inline(never)]
fn set_parts(bytes: &mut [u8], parts: &[Range<usize>], value: u8) {
    for part in parts {
        bytes[part.clone()].fill(value);
    }
}

#[inline(never)]
fn set_all(bytes: &mut [u8], value: u8) {
    bytes.fill(value);
}
