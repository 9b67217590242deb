//! How frames and drawing calls are put to the Rust, whose frame sizes are fixed when it is compiled.

use crate::{
    figures::{sorted_edges, Figures},
    question::Question,
};
use embedded_graphics::{
    framebuffer::{buffer_size_bpp, Framebuffer},
    geometry::{Dimensions, Point},
    image::GetPixel,
    pixelcolor::raw::{BigEndian, LittleEndian, RawData, RawU1, RawU16, RawU2, RawU24, RawU32, RawU4, RawU8},
    primitives::{PointsIter, Triangle},
};
use std::{fmt::Write, ops::Range};

/// The bytes of `replay`'s buffer. A frame's own bytes are the first of them; the rest is its tail.
const LENGTH: usize = 65_536;

const MOST_DUMPED: usize = 4_096;

const MOST_DISTANT: usize = 16_384;

/// How many pixels beside the frame are still put to `set_pixel`. A filled figure may have hundreds of millions further off, which it would leave out one by one.
const BESIDE: i32 = 8;

/// A frame buffer of any size, depth and order.
trait Frame {
    fn set(&mut self, p: Point, colour: u32);
    fn get(&self, p: Point) -> Option<u32>;
    fn bytes(&mut self) -> &mut [u8];
}

macro_rules! frame_at_depth {
    ($raw:ty) => {
        frame_at_depth!($raw, LittleEndian);
        frame_at_depth!($raw, BigEndian);
    };
    ($raw:ty, $order:ty) => {
        impl<const W: usize, const H: usize> Frame for Framebuffer<$raw, $raw, $order, W, H, LENGTH> {
            fn set(&mut self, p: Point, colour: u32) {
                self.set_pixel(p, <$raw>::new(colour as <$raw as RawData>::Storage));
            }

            fn get(&self, p: Point) -> Option<u32> {
                self.pixel(p).map(|colour| colour.into_inner().into())
            }

            fn bytes(&mut self) -> &mut [u8] {
                self.data_mut()
            }
        }
    };
}

frame_at_depth!(RawU1);
frame_at_depth!(RawU2);
frame_at_depth!(RawU4);
frame_at_depth!(RawU8);
frame_at_depth!(RawU16);
frame_at_depth!(RawU24);
frame_at_depth!(RawU32);

/// Hands the sizes that are compiled to a macro, after its own words.
macro_rules! with_sizes {
    ($macro:ident!($($word:tt)*)) => {
        $macro!($($word)* =>
            (0, 0) (0, 3) (3, 0) (1, 1) (1, 9) (2, 3) (3, 2) (4, 4) (5, 3) (7, 2) (8, 3) (9, 5) (10, 3)
            (15, 2) (16, 2) (17, 3) (31, 1) (33, 2) (64, 3) (100, 80) (1, 2048) (2048, 1)
            (2048, 8) (8, 2048) (2047, 3) (3, 2047) (1025, 5) (5, 1025))
    };
}

macro_rules! list {
    (=> $($size:tt)*) => { &[$($size),*] };
}

macro_rules! new_frame {
    ($size:ident $raw:ident $order:ident => $(($w:literal, $h:literal))*) => {
        match $size {
            $(($w, $h) => boxed(Framebuffer::<$raw, $raw, $order, $w, $h, LENGTH>::new),)*
            _ => return None,
        }
    };
}

pub const SIZES: &[(u32, u32)] = with_sizes!(list!());

fn new_frame(size: (u32, u32), depth: u32, big: bool) -> Option<Box<dyn Frame>> {
    Some(match (depth, big) {
        (1, false) => with_sizes!(new_frame!(size RawU1 LittleEndian)),
        (1, true) => with_sizes!(new_frame!(size RawU1 BigEndian)),
        (2, false) => with_sizes!(new_frame!(size RawU2 LittleEndian)),
        (2, true) => with_sizes!(new_frame!(size RawU2 BigEndian)),
        (4, false) => with_sizes!(new_frame!(size RawU4 LittleEndian)),
        (4, true) => with_sizes!(new_frame!(size RawU4 BigEndian)),
        (8, false) => with_sizes!(new_frame!(size RawU8 LittleEndian)),
        (8, true) => with_sizes!(new_frame!(size RawU8 BigEndian)),
        (16, false) => with_sizes!(new_frame!(size RawU16 LittleEndian)),
        (16, true) => with_sizes!(new_frame!(size RawU16 BigEndian)),
        (24, false) => with_sizes!(new_frame!(size RawU24 LittleEndian)),
        (24, true) => with_sizes!(new_frame!(size RawU24 BigEndian)),
        (32, false) => with_sizes!(new_frame!(size RawU32 LittleEndian)),
        (32, true) => with_sizes!(new_frame!(size RawU32 BigEndian)),
        _ => return None,
    })
}

/// A frame of its own function each, so that a debug build does not hold all sizes on one stack.
fn boxed<F: Frame + 'static>(new: fn() -> F) -> Box<dyn Frame> {
    Box::new(new())
}

/// What may change the bytes.
const CHANGES: [&str; 9] = ["preset", "pixel", "fill", "line", "trace", "triangle", "outline", "circle", "load"];

/// The frame described last; none if the Rust can't have it.
#[derive(Default)]
pub struct Frames(Option<Described>);

struct Described {
    frame: Box<dyn Frame>,
    /// A frame of that size with one bit a pixel, on which a figure is counted.
    seen: Box<dyn Frame>,
    size: (i32, i32),
    depth: u32,
    spread: Spread,
}

/// Where `replay` has the rows of the frame, which in the Rust have no gap between them.
struct Spread {
    row_bytes: usize,
    height: usize,
    distance: usize,
    /// What lies between and behind the rows is as it was preset; the rows themselves are copied when they are shown.
    bytes: Vec<u8>,
}

impl Spread {
    /// The Rust's bytes as they are where there is no gap, and else a copy of its rows at their distance.
    fn over<'a>(&'a mut self, rows: &'a [u8]) -> &'a [u8] {
        if self.distance == self.row_bytes {
            return rows;
        }
        for y in 0..self.height {
            let row = &rows[y * self.row_bytes..][..self.row_bytes];
            self.bytes[y * self.distance..][..self.row_bytes].copy_from_slice(row);
        }
        &self.bytes
    }
}

impl Frames {
    pub fn answer(&mut self, question: &Question, figures: &Figures) -> Option<String> {
        if let ("frame", &[width, height, depth, order, length, distance]) = (question.word, question.numbers.as_slice()) {
            self.forget();
            return self.describe((width, height), depth, order, length, distance);
        }
        let answer = self.0.as_mut()?.answer(question, figures);
        if answer.is_none() && CHANGES.contains(&question.word) {
            return self.forget();
        }
        answer
    }

    /// No answer to a line that may have changed the bytes: they are unknown until the next frame.
    pub fn forget(&mut self) -> Option<String> {
        self.0 = None;
        None
    }

    /// A buffer too short for the frame is the Rust's failed assertion at compile time. Of distances it knows nothing: it answers for the rows of a frame that has
    /// a good one.
    fn describe(&mut self, (width, height): (i64, i64), depth: i64, order: i64, length: i64, distance: i64) -> Option<String> {
        let size = (u32::try_from(width).ok()?, u32::try_from(height).ok()?);
        let depth = u32::try_from(depth).ok()?;
        let big = [false, true].get(usize::try_from(order).ok()?)?;
        let (frame, seen) = (new_frame(size, depth, *big)?, new_frame(size, 1, false)?);
        let (height, distance) = (size.1 as usize, usize::try_from(distance).ok()?);
        let row_bytes = buffer_size_bpp(size.0 as usize, 1, depth as usize);
        if !(row_bytes..=MOST_DISTANT).contains(&distance) || !(distance * height..=LENGTH).contains(&usize::try_from(length).ok()?) {
            return None;
        }
        let spread = Spread { row_bytes, height, distance, bytes: vec![0; LENGTH] };
        self.0 = Some(Described { frame, seen, size: (size.0 as i32, size.1 as i32), depth, spread });
        Some(format!("0\t{}", distance * height))
    }
}

impl Described {
    fn answer(&mut self, question: &Question, figures: &Figures) -> Option<String> {
        match (question.word, question.numbers.as_slice()) {
            ("preset", &[value]) => {
                let value = u8::try_from(value).ok()?;
                self.frame.bytes().fill(value);
                self.spread.bytes.fill(value);
                Some("0".into())
            }
            ("read", &[x, y]) => Some(match self.frame.get(pixel(x, y)?) {
                Some(colour) => format!("0\t{colour}"),
                // None stands for refusal 8.
                None => "8\t0".into(),
            }),
            ("dump", &[from, count]) => {
                let (from, count) = (usize::try_from(from).ok()?, usize::try_from(count).ok()?);
                let bytes = self.spread.over(self.frame.bytes()).get(from..from + count)?;
                (count <= MOST_DUMPED).then(|| hexadecimal(bytes))
            }
            ("lit", []) if self.depth == 1 => Some(format!("0\t{}", lit(&*self.frame, self.size))),
            (word, [figure @ .., colour]) => {
                let colour = self.colour(*colour)?;
                self.draw(points(word, figure, figures, self.size)?, colour)
            }
            _ => None,
        }
    }

    /// The crate's calls answer nothing, so that the pixels of a figure are counted as those that it lights on zeros. Of `pixel` that is 1 inside the
    /// frame and 0 beside it.
    fn draw(&mut self, points: Points, colour: u32) -> Option<String> {
        self.seen.bytes().fill(0);
        for p in points {
            self.frame.set(p, colour);
            self.seen.set(p, 1);
        }
        Some(format!("0\t{}", lit(&*self.seen, self.size)))
    }

    /// A colour that the depth holds; the Rust cuts the bits of others off.
    fn colour(&self, colour: i64) -> Option<u32> {
        u32::try_from(colour).ok().filter(|c| u64::from(*c) < 1 << self.depth)
    }
}

/// How many pixels of one bit are 1, each read by itself.
fn lit(frame: &dyn Frame, (width, height): (i32, i32)) -> usize {
    let places = (0..height).flat_map(|y| (0..width).map(move |x| Point::new(x, y)));
    places.filter(|p| frame.get(*p) == Some(1)).count()
}

type Points = Box<dyn Iterator<Item = Point>>;

/// The points of a figure in the order in which the Rust gives them. The crate draws styled figures, whose text is not given:
/// a line is drawn by its points, a connected line by those of `next_all`, an outline by those of its three edges, each walked
/// from its smaller end as the Rust's own rows have it, a filled triangle and a circle by their spans, which are also what the
/// points of a circle are made of.
fn points(word: &str, figure: &[i64], figures: &Figures, size: (i32, i32)) -> Option<Points> {
    Some(match (word, figure) {
        ("pixel", &[x, y]) => Box::new([pixel(x, y)?].into_iter()),
        ("line", line) => Box::new(figures.line(line)?.points()),
        ("trace", line) => Box::new(figures.line(line)?.connected_points()),
        ("outline", triangle) => Box::new(sorted_edges(&figures.triangle(triangle)?).into_iter().flat_map(|edge| edge.points())),
        ("triangle", triangle) => Box::new(near(triangle_spans(figures.triangle(triangle)?, size.1), size)),
        ("circle", circle) => {
            let spans: Vec<_> = figures.circle(circle)?.row_spans().take_while(|(y, _)| *y < size.1 + BESIDE).collect();
            Box::new(near(spans.into_iter(), size))
        }
        _ => return None,
    })
}

/// The spans of the rows that the frame has, and of some beside it.
fn triangle_spans(triangle: Triangle, height: i32) -> impl Iterator<Item = (i32, Range<i32>)> {
    let rows = within(triangle.bounding_box().rows(), height);
    rows.map(move |y| (y, triangle.row_span(y)))
}

/// The pixels of rows with their columns, those in the frame and close to it.
fn near(spans: impl Iterator<Item = (i32, Range<i32>)>, (width, height): (i32, i32)) -> impl Iterator<Item = Point> {
    let rows = within(i32::MIN..i32::MAX, height);
    let spans = spans.filter(move |(y, _)| rows.contains(y));
    spans.flat_map(move |(y, columns)| within(columns, width).map(move |x| Point::new(x, y)))
}

/// The part of a range that lies along a side of the frame, or close to it.
fn within(range: Range<i32>, side: i32) -> Range<i32> {
    range.start.max(-BESIDE)..range.end.min(side + BESIDE)
}

/// A place of any 32 bits: the Rust takes every one for setting and reading.
fn pixel(x: i64, y: i64) -> Option<Point> {
    Some(Point::new(i32::try_from(x).ok()?, i32::try_from(y).ok()?))
}

fn hexadecimal(bytes: &[u8]) -> String {
    let mut text = String::with_capacity(2 * bytes.len());
    for byte in bytes {
        write!(text, "{byte:02x}").unwrap();
    }
    text
}
