//! The questions on triangles and circles, and the points of a line and of a connected line.

use crate::{
    inputs::{point, triangle, Inputs, Vertices},
    ours,
    race::{Race, Work},
};
use embedded_graphics::{
    geometry::Point,
    primitives::{Circle, ContainsPoint, Line, PointsIter, Triangle},
};
use std::hint::black_box;

const PIXELS: usize = 1_000;

/// A triangle whose edges have about 8,000 points, and one of a sixteenth.
const LARGE: Vertices = [(0, 0), (8_000, 96), (3_008, 7_904)];
const SMALL: Vertices = [(0, 0), (500, 6), (188, 494)];

/// The ends of a line of 16,000 points.
const ENDS: [ours::Place; 2] = [(100, 100), (16_099, 5_003)];

pub fn races<'a>() -> Vec<Race<'a>> {
    let mut inputs = Inputs::new();
    let triangle = triangle(LARGE);
    let inside = inputs.pixels(PIXELS, (0, 8_000), |p| triangle.contains(p));
    let beside = inputs.pixels(PIXELS, (0, 7_900), |p| !triangle.contains(p));
    let outside = inputs.pixels(PIXELS, (8_001, 8_191), |_| true);
    let anywhere = inputs.pixels(PIXELS, (0, 7_900), |_| true);
    let anywhere_small = anywhere.iter().map(|(x, y)| (x / 16, y / 16)).collect();
    vec![
        contains("`contains`, pixel inside the triangle", 1.0, inside),
        contains("`contains`, pixel outside the bounding box", 1.0, outside),
        contains("`contains`, in the box and outside the triangle, edges of 8,000 points", 0.002, beside),
        row_spans(),
        circle_rows(),
        line_off_the_frame(),
        connected_line_off_the_frame(),
        Race {
            name: "from n to 16n: `contains`".into(),
            against: "ours at n",
            goal: Some(1.2),
            ours: ask_ours(LARGE, anywhere),
            other: ask_ours(SMALL, anywhere_small),
        },
        Race {
            name: "from n to 16n: a row's span".into(),
            against: "ours at n",
            goal: Some(1.2),
            ours: span_ours(LARGE, (0..7_904).step_by(16).collect()),
            other: span_ours(SMALL, (0..494).collect()),
        },
    ]
}

fn contains<'a>(name: &str, goal: f64, pixels: Vec<ours::Place>) -> Race<'a> {
    let triangle = triangle(LARGE);
    let by_rust = pixels.iter().filter(|p| rust_contains(&triangle, point(**p))).count();
    let by_us = pixels.iter().filter(|p| ours::contains(LARGE, **p)).count();
    assert_eq!(by_rust, by_us, "{name}: the sides disagree");
    let asked = pixels.clone();
    Race {
        name: name.into(),
        against: "the Rust",
        goal: Some(goal),
        ours: ask_ours(LARGE, pixels),
        other: Work::new(asked.len(), move || {
            black_box(asked.iter().filter(|p| rust_contains(black_box(&triangle), point(**p))).count());
        }),
    }
}

fn ask_ours<'a>(vertices: Vertices, pixels: Vec<ours::Place>) -> Work<'a> {
    Work::new(pixels.len(), move || {
        black_box(pixels.iter().filter(|p| ours::contains(*black_box(&vertices), **p)).count());
    })
}

fn span_ours<'a>(vertices: Vertices, rows: Vec<i32>) -> Work<'a> {
    Work::new(rows.len(), move || {
        for y in &rows {
            black_box(ours::row_span(*black_box(&vertices), *y));
        }
    })
}

fn row_spans<'a>() -> Race<'a> {
    let vertices = [(0, 0), (8_000, 4_000), (1_000, 7_999)];
    let triangle = triangle(vertices);
    let rows = 0..8_000;
    for y in rows.clone() {
        let span = triangle.row_span(y);
        assert_eq!((span.start, span.end), ours::row_span(vertices, y), "row {y}: the sides disagree");
    }
    Race {
        name: "all row spans of a triangle of 8,000 rows, as questions".into(),
        against: "the Rust",
        goal: Some(0.005),
        ours: span_ours(vertices, rows.clone().collect()),
        other: Work::new(rows.len(), move || {
            for y in rows.clone() {
                black_box(rust_row_span(black_box(&triangle), y));
            }
        }),
    }
}

fn circle_rows<'a>() -> Race<'a> {
    let (top_left, diameter) = ((-10, 20), 8_000);
    let circle = Circle::new(point(top_left), diameter);
    for (y, span) in circle.row_spans() {
        let ours = ours::circle_row_span(top_left, diameter, y);
        assert_eq!((span.start, span.end), ours, "row {y}: the sides disagree");
    }
    let rows = top_left.1..top_left.1 + diameter as i32;
    Race {
        name: "all rows of a circle, d = 8,000".into(),
        against: "the Rust",
        goal: Some(0.02),
        ours: Work::new(rows.len(), move || {
            for y in rows.clone() {
                black_box(ours::circle_row_span(black_box(top_left), black_box(diameter), y));
            }
        }),
        other: Work::new(diameter as usize, move || {
            black_box(rust_circle_rows(black_box(&circle)));
        }),
    }
}

fn line_off_the_frame<'a>() -> Race<'a> {
    off_the_frame("a whole line of 16,000 points off the frame, against the Rust's points", ours::Frame::draw_line, rust_points)
}

fn connected_line_off_the_frame<'a>() -> Race<'a> {
    let name = "a whole connected line of 16,000 steps off the frame, against the Rust's `next_all`";
    off_the_frame(name, ours::Frame::draw_connected_line, rust_connected_points)
}

fn long_line() -> Line {
    let [start, end] = ENDS.map(point);
    Line::new(start, end)
}

/// The Rust only hands the points out; our library finds that the frame has none of them.
fn off_the_frame<'a>(name: &str, draw: fn(&mut ours::Frame, ours::Place, ours::Place, u32), walk: fn(&Line) -> i32) -> Race<'a> {
    let ([start, end], line) = (ENDS, long_line());
    let mut frame = ours::Frame::new(64, 64, 1);
    draw(&mut frame, start, end, 1);
    assert!(frame.bytes.iter().all(|byte| *byte == 0), "{name}: our library painted");
    Race {
        name: name.into(),
        against: "the Rust",
        goal: Some(1.0),
        ours: Work::new(1, move || draw(&mut frame, black_box(start), black_box(end), 1)),
        other: Work::new(1, move || {
            black_box(walk(black_box(&line)));
        }),
    }
}

#[inline(never)]
fn rust_contains(triangle: &Triangle, p: Point) -> bool {
    triangle.contains(p)
}

#[inline(never)]
fn rust_row_span(triangle: &Triangle, y: i32) -> (i32, i32) {
    let span = triangle.row_span(y);
    (span.start, span.end)
}

#[inline(never)]
fn rust_circle_rows(circle: &Circle) -> i32 {
    circle.row_spans().map(|(_, span)| span.start).fold(0, i32::wrapping_add)
}

#[inline(never)]
fn rust_points(line: &Line) -> i32 {
    gone_through(line.points())
}

#[inline(never)]
fn rust_connected_points(line: &Line) -> i32 {
    gone_through(line.connected_points())
}

fn gone_through(points: impl Iterator<Item = Point>) -> i32 {
    points.map(|p| p.x ^ p.y).fold(0, i32::wrapping_add)
}
