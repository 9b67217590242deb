//! The trait that framebuffer.rs implements.

use crate::{geometry::Dimensions, pixelcolor::PixelColor, primitives::Rectangle, Pixel};

pub trait DrawTarget: Dimensions {
    type Color: PixelColor;
    type Error;

    fn draw_iter<I>(&mut self, pixels: I) -> Result<(), Self::Error>
    where
        I: IntoIterator<Item = Pixel<Self::Color>>;

    fn fill_solid(&mut self, _: &Rectangle, _: Self::Color) -> Result<(), Self::Error> {
        unimplemented!()
    }
}
