//! Stands in for the crate's image reads, whose text is not given: a pixel by the layout of 01 (docs/RULES.md), through the given iterator/raw.rs.

use crate::{
    geometry::Point,
    iterator::raw::RawDataSlice,
    pixelcolor::{
        raw::{ByteOrder, RawData},
        PixelColor,
    },
};
use core::marker::PhantomData;

pub trait GetPixel {
    type Color;

    fn pixel(&self, p: Point) -> Option<Self::Color>;
}

pub struct ImageRaw<'a, C, BO> {
    data: &'a [u8],
    width: u32,
    colour: PhantomData<C>,
    order: PhantomData<BO>,
}

impl<'a, C, BO> ImageRaw<'a, C, BO>
where
    C: PixelColor,
    BO: ByteOrder,
{
    // BEHAVES
    pub const fn new(data: &'a [u8], width: u32) -> Self {
        ImageRaw { data, width, colour: PhantomData, order: PhantomData }
    }
}

// BEHAVES: none outside the image; a row takes whole bytes, so below 8 bits its padding counts as pixels of the iterator.
impl<'a, C, BO> GetPixel for ImageRaw<'a, C, BO>
where
    C: PixelColor + From<C::Raw>,
    BO: ByteOrder,
    RawDataSlice<'a, C::Raw, BO>: IntoIterator<Item = C::Raw>,
{
    type Color = C;

    fn pixel(&self, p: Point) -> Option<C> {
        let bits = C::Raw::BITS_PER_PIXEL;
        let bytes_per_row = (self.width as usize * bits).div_ceil(8);
        let (x, y) = (usize::try_from(p.x).ok()?, usize::try_from(p.y).ok()?);
        if x >= self.width as usize || (y + 1) * bytes_per_row > self.data.len() {
            return None;
        }
        let pixels_per_row = bytes_per_row * 8 / bits;
        RawDataSlice::<C::Raw, BO>::new(self.data).into_iter().nth(y * pixels_per_row + x).map(C::from)
    }
}
