//! What is drawn, in the same places by every side, and our library drawing it.

use crate::{
    expected::{colour, new_frame, painted, SIDE},
    inputs::{Inputs, Vertices},
    ours::{Frame, Place},
    race::Work,
};
use std::hint::black_box;

/// So many small figures are drawn in turn, each at a place of its own.
const PLACES: usize = 100;

/// So many level or upright lines are drawn in turn, side by side. Their bytes at depth 8 fit the processor's nearest cache.
pub const LINES: i32 = 16;

/// Pixels that are set one by one.
pub const PIXELS: usize = 1_000;

const LAST: i32 = SIDE as i32 - 1;

/// Over half of the frame.
pub const HALF: Vertices = [(0, 0), (LAST, 0), (0, LAST)];

/// The same pixels of the frame, with three edges of 200,000 points.
pub const FAR_HALF: Vertices = [(-98_976, -98_976), (101_023, -98_976), (-98_976, 101_023)];

/// A line of 2,048 points, one in each column; then lines of 20,000 and 200,000 points that have these and no others on the frame.
pub const CROSSING: [Place; 2] = [(0, 600), (LAST, 1_382)];
pub const CROSSING_20_000: [Place; 2] = [(-8_976, -2_829), (11_023, 4_811)];
pub const CROSSING_200_000: [Place; 2] = [(-98_976, -37_211), (101_023, 39_193)];

/// From the end of a level or upright line to the other, on the frame and far beyond it.
pub const ON_THE_FRAME: Place = (0, LAST);
pub const BEYOND_THE_FRAME: Place = (-98_976, 101_023);

/// A circle by the corner of its box and its diameter.
pub type Disc = (Place, u32);

/// About the frame's corner (0, 0), and over the whole frame: wherever the range lets a circle of 200,000 lie, it covers that.
pub const FAR_CIRCLE: Disc = ((-100_000, -100_000), 200_000);
pub const FAR_CIRCLE_20_000: Disc = ((-10_000, -10_000), 20_000);

/// The edge crosses the frame's middle from corner to corner, nearly straight.
pub const FAR_EDGE: Disc = ((-20_944, -20_944), 150_000);
pub const FAR_EDGE_15_000: Disc = ((-1_173, -1_173), 15_000);

/// Calls of one kind.
#[derive(Clone)]
pub enum Shapes {
    Pixels(Vec<Place>),
    Lines(Vec<[Place; 2]>),
    Triangles(Vec<Vertices>),
    Circles(Vec<Disc>),
    WholeFrame,
}

impl Shapes {
    /// How many calls these are.
    pub fn count(&self) -> usize {
        match self {
            Shapes::Pixels(pixels) => pixels.len(),
            Shapes::Lines(lines) => lines.len(),
            Shapes::Triangles(triangles) => triangles.len(),
            Shapes::Circles(circles) => circles.len(),
            Shapes::WholeFrame => 1,
        }
    }

    pub fn line(ends: [Place; 2]) -> Self {
        Shapes::Lines(vec![ends])
    }

    pub fn triangle(vertices: Vertices) -> Self {
        Shapes::Triangles(vec![vertices])
    }

    pub fn circle(disc: Disc) -> Self {
        Shapes::Circles(vec![disc])
    }

    pub fn pixels() -> Self {
        Shapes::Pixels(Inputs::new().pixels(PIXELS, (0, LAST), |_| true))
    }

    pub fn level_lines((first, last): Place) -> Self {
        Shapes::Lines((0..LINES).map(|y| [(first, y), (last, y)]).collect())
    }

    pub fn upright_lines((first, last): Place) -> Self {
        Shapes::Lines((0..LINES).map(|x| [(x, first), (x, last)]).collect())
    }

    /// Each of 40 points.
    pub fn small_lines() -> Self {
        Shapes::Lines(places().map(|(x, y)| [(x, y), (x + 39, y + 17)]).collect())
    }

    /// Each in a box of 30 by 34 pixels.
    pub fn small_triangles() -> Self {
        Shapes::Triangles(places().map(|(x, y)| [(x, y), (x + 29, y + 11), (x + 8, y + 33)]).collect())
    }

    /// Each of a diameter of 31.
    pub fn small_circles() -> Self {
        Shapes::Circles(places().map(|place| (place, 31)).collect())
    }
}

/// Places of small figures, which then lie on the frame as a whole.
fn places() -> impl Iterator<Item = Place> {
    Inputs::new().pixels(PLACES, (0, LAST - 40), |_| true).into_iter()
}

/// One that draws on a frame of its own.
pub trait Side {
    fn draw(&mut self, shapes: &Shapes);

    /// How many pixels of the frame, which was zero, are painted.
    fn painted(&self) -> usize;
}

/// Our library, on a frame of one depth.
pub struct Ours {
    pub frame: Frame,
    depth: u32,
}

impl Ours {
    pub fn new(depth: u32) -> Self {
        Ours { frame: new_frame(depth), depth }
    }

    /// A frame on which the shapes are drawn.
    pub fn having_drawn(depth: u32, shapes: &Shapes) -> Self {
        let mut ours = Ours::new(depth);
        ours.draw(shapes);
        ours
    }
}

impl Side for Ours {
    fn draw(&mut self, shapes: &Shapes) {
        let (frame, colour) = (&mut self.frame, colour(self.depth));
        match shapes {
            Shapes::Pixels(pixels) => pixels.iter().for_each(|p| frame.set_pixel(*p, colour)),
            Shapes::Lines(lines) => lines.iter().for_each(|[start, end]| frame.draw_line(*start, *end, colour)),
            Shapes::Triangles(triangles) => triangles.iter().for_each(|vertices| frame.draw_triangle(*vertices, colour)),
            Shapes::Circles(circles) => circles.iter().for_each(|(top_left, diameter)| frame.draw_circle(*top_left, *diameter, colour)),
            Shapes::WholeFrame => frame.fill(colour),
        }
    }

    fn painted(&self) -> usize {
        painted(&self.frame.bytes, self.depth)
    }
}

/// The shapes drawn by a side, again and again.
pub fn drawing<'a>(mut side: Box<dyn Side>, shapes: Shapes) -> Work<'a> {
    Work::new(shapes.count(), move || side.draw(black_box(&shapes)))
}
