//! Draws the day that `minutes` counts as an image file (P6), as the program `chart` does: the wedge, the axes, and a disc for each sample, blue if it lies
//! inside the wedge and red if not.
//!
//!     chart [FILE]
//!
//! The image goes to the file, or to standard output. Of an input that `minutes` does not count, its line is written to standard error, and no image. The
//! status is 1 if there is none, or if it could not be written.

mod samples;

use beamacorn::{ByteOrder, Circle, Frame, Line, Point, Refusal, Triangle};
use samples::{Trouble, read_samples, read_wedge};
use std::{
    env, fs,
    io::{self, BufRead, Write},
    process::ExitCode,
};

const PANE: Frame = Frame::packed(640, 360, 24, ByteOrder::BigEndian);
/// Where the axes meet.
const ORIGIN: Point = Point::new(24, 335);
const GROUND: u32 = 0xFFFFFF;
const FILLING: u32 = 0xD6E4F0;
const INK: u32 = 0x404040;
const INSIDE: u32 = 0x0060A8;
const OUTSIDE: u32 = 0xD04010;

/// How many pixels from 0 a number stands on an axis of `size` pixels that ends at `most`; at most 130,000, so that no place is refused.
fn scaled(number: i32, most: i32, size: i64) -> i32 {
    (i64::from(number) * size / i64::from(most)).clamp(-130_000, 130_000) as i32
}

/// Where a second and a load stand, if the axes end at `most`. Loads grow upwards.
fn spot(place: Point, most: Point) -> Point {
    Point::new(ORIGIN.x + scaled(place.x, most.x, 600), ORIGIN.y - scaled(place.y, most.y, 320))
}

/// A rectangle, as two triangles.
fn draw_box(buf: &mut [u8], top_left: Point, bottom_right: Point, colour: u32) -> Result<(), Refusal> {
    let [top_right, bottom_left] = [Point::new(bottom_right.x, top_left.y), Point::new(top_left.x, bottom_right.y)];
    PANE.draw_triangle(buf, Triangle::new(top_left, top_right, bottom_right), colour)?;
    PANE.draw_triangle(buf, Triangle::new(top_left, bottom_left, bottom_right), colour)?;
    Ok(())
}

fn draw_day(buf: &mut [u8], wedge: Triangle, samples: &[Point]) -> Result<(), Refusal> {
    let places = wedge.vertices.iter().chain(samples);
    let most = places.fold(Point::new(1, 1), |most, place| Point::new(most.x.max(place.x), most.y.max(place.y)));

    PANE.fill(buf, GROUND)?;
    PANE.draw_triangle(buf, Triangle { vertices: wedge.vertices.map(|vertex| spot(vertex, most)) }, FILLING)?;
    // The margins go over what of the wedge lies below 0.
    draw_box(buf, Point::new(0, 0), Point::new(23, 359), GROUND)?;
    draw_box(buf, Point::new(0, 336), Point::new(639, 359), GROUND)?;
    PANE.draw_line(buf, Line::new(ORIGIN, Point::new(624, 335)), INK)?;
    PANE.draw_line(buf, Line::new(ORIGIN, Point::new(24, 15)), INK)?;
    for &sample in samples.iter().filter(|sample| sample.x >= 0 && sample.y >= 0) {
        let colour = if wedge.contains(sample)? { INSIDE } else { OUTSIDE };
        PANE.draw_circle(buf, Circle::new(spot(sample, most) - Point::new(1, 1), 3), colour)?;
    }
    Ok(())
}

/// The image file of the day.
fn chart(input: &mut impl BufRead) -> Result<Vec<u8>, Trouble> {
    let wedge = read_wedge(input)?;
    let samples: Vec<Point> = read_samples(input).collect::<Result<_, _>>()?;
    let mut buf = vec![0; PANE.size()?];
    draw_day(&mut buf, wedge, &samples)?;
    let mut image = vec![0; PANE.image_size()?];
    PANE.write_image(&buf, &mut image)?;
    Ok(image)
}

fn write(image: &[u8]) -> Result<(), String> {
    if let Some(path) = env::args_os().nth(1) {
        return fs::write(&path, image).map_err(|error| format!("{}: {error}", path.display()));
    }
    let mut out = io::stdout().lock();
    out.write_all(image).and_then(|()| out.flush()).map_err(|error| format!("standard output: {error}"))
}

fn main() -> ExitCode {
    let image = chart(&mut io::stdin().lock()).map_err(|trouble| trouble.to_string());
    match image.and_then(|image| write(&image)) {
        Ok(()) => ExitCode::SUCCESS,
        Err(complaint) => {
            eprintln!("{complaint}");
            ExitCode::FAILURE
        }
    }
}
