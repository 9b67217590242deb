//! Lets the Rust draw by the recipe into a frame of ours, beside a figure that we have drawn there, and into its own frame: each pixel must be the same.

include!(concat!(env!("OUT_DIR"), "/recipe.rs"));

use beamacorn::{ByteOrder, Circle};
use embedded_graphics::{
    framebuffer::{Framebuffer, buffer_size_bpp},
    pixelcolor::raw::{BigEndian, LittleEndian, RawU1, RawU16},
    primitives::{Line, PointsIter},
};

/// Lines over the frame and past each of its sides, three beside one another.
fn stroke<C: Copy>(colour: C) -> impl Iterator<Item = Pixel<C>> {
    let place = embedded_graphics::geometry::Point::new;
    let lines = (-1..2).map(move |beside| Line::new(place(-3, 2 + beside), place(40, 7 + beside)));
    lines.flat_map(move |line| line.points()).map(move |point| Pixel(point, colour))
}

macro_rules! holds {
    ($raw:ident, $order:ident, $colour:literal) => {{
        const DEPTH: usize = <$raw as RawData>::BITS_PER_PIXEL;
        const SIZE: usize = buffer_size_bpp(33, 9, DEPTH);
        let colour = $raw::new($colour);
        let mut theirs = Framebuffer::<$raw, $raw, $order, 33, 9, SIZE>::new();
        theirs.draw_iter(stroke(colour)).unwrap();

        let frame = Frame::packed(33, 9, DEPTH as u32, ByteOrder::$order);
        let mut buf = [0; SIZE];
        let mut target = Target { frame, buf: &mut buf, colours: PhantomData };
        assert_eq!(target.size(), theirs.size());
        target.draw_iter(stroke(colour)).unwrap();
        assert_eq!(&buf, theirs.data());

        // What we have drawn before and what the Rust draws over it is one picture.
        let disc = Circle::new(Point::new(10, 0), 9);
        let mut both = [0; SIZE];
        frame.draw_circle(&mut both, disc, 1).unwrap();
        Target { frame, buf: &mut both, colours: PhantomData }.draw_iter(stroke(colour)).unwrap();
        for place in (0..9).flat_map(|y| (0..33).map(move |x| Point::new(x, y))) {
            let stroked = frame.pixel(&buf, place).unwrap();
            let below = disc.contains(place).unwrap().into();
            assert_eq!(frame.pixel(&both, place), Ok(if stroked == 0 { below } else { stroked }));
        }

        // A frame of another depth refuses the colour, or the buffer.
        let other = Frame::packed(33, 9, 1, ByteOrder::$order);
        let refused = Target { frame: other, buf: &mut buf[..1], colours: PhantomData }.draw_iter(stroke(colour));
        assert_eq!(refused, Err(Refusal::SHORT_BUFFER));
    }};
}

fn main() {
    holds!(RawU1, LittleEndian, 1);
    holds!(RawU16, LittleEndian, 0x1234);
    holds!(RawU16, BigEndian, 0x1234);
    println!("the recipe of docs/FROM-EMBEDDED-GRAPHICS.md: each pixel as in the Rust's own frame");
}
