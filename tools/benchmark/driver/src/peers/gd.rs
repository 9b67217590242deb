//! libgd, as its header gd.h declares it: palette images of 8 bits a pixel and true colour of 32. Nothing is blended or smoothed.

use crate::{
    expected::SIDE,
    shapes::{Shapes, Side},
};
use std::ffi::{c_char, c_int, CStr};

#[repr(C)]
struct GdImage {
    _private: [u8; 0],
}

#[repr(C)]
struct GdPoint {
    x: c_int,
    y: c_int,
}

#[rustfmt::skip]
extern "C" {
    fn gdVersionString() -> *const c_char;
    fn gdImageCreate(width: c_int, height: c_int) -> *mut GdImage;
    fn gdImageCreateTrueColor(width: c_int, height: c_int) -> *mut GdImage;
    fn gdImageDestroy(image: *mut GdImage);
    fn gdImageColorAllocate(image: *mut GdImage, red: c_int, green: c_int, blue: c_int) -> c_int;
    fn gdImageAlphaBlending(image: *mut GdImage, blending: c_int);
    fn gdImageGetPixel(image: *mut GdImage, x: c_int, y: c_int) -> c_int;
    fn gdImageSetPixel(image: *mut GdImage, x: c_int, y: c_int, colour: c_int);
    fn gdImageLine(image: *mut GdImage, x1: c_int, y1: c_int, x2: c_int, y2: c_int, colour: c_int);
    fn gdImageFilledPolygon(image: *mut GdImage, points: *const GdPoint, count: c_int, colour: c_int);
    fn gdImageFilledEllipse(image: *mut GdImage, x: c_int, y: c_int, width: c_int, height: c_int, colour: c_int);
    fn gdImageFilledRectangle(image: *mut GdImage, x1: c_int, y1: c_int, x2: c_int, y2: c_int, colour: c_int);
}

const LAST: c_int = SIDE as c_int - 1;

pub fn version() -> String {
    unsafe { CStr::from_ptr(gdVersionString()) }.to_string_lossy().into_owned()
}

pub struct Image {
    image: *mut GdImage,
    colour: c_int,
}

impl Image {
    pub fn palette() -> Self {
        let image = unsafe { gdImageCreate(SIDE as c_int, SIDE as c_int) };
        // The first colour of a palette is the background.
        unsafe { gdImageColorAllocate(image, 0, 0, 0) };
        Image::with_colour(image)
    }

    pub fn true_colour() -> Self {
        let image = unsafe { gdImageCreateTrueColor(SIDE as c_int, SIDE as c_int) };
        unsafe { gdImageAlphaBlending(image, 0) };
        Image::with_colour(image)
    }

    fn with_colour(image: *mut GdImage) -> Self {
        let colour = unsafe { gdImageColorAllocate(image, 0xa5, 0xc3, 0x96) };
        assert!(colour > 0, "libgd has no colour");
        Image { image, colour }
    }
}

impl Side for Image {
    fn draw(&mut self, shapes: &Shapes) {
        let Image { image, colour } = *self;
        match shapes {
            Shapes::Pixels(pixels) => pixels.iter().for_each(|(x, y)| unsafe { gdImageSetPixel(image, *x, *y, colour) }),
            Shapes::Lines(lines) => {
                for [(x1, y1), (x2, y2)] in lines {
                    unsafe { gdImageLine(image, *x1, *y1, *x2, *y2, colour) };
                }
            }
            Shapes::Triangles(triangles) => {
                for vertices in triangles {
                    let points = vertices.map(|(x, y)| GdPoint { x, y });
                    unsafe { gdImageFilledPolygon(image, points.as_ptr(), 3, colour) };
                }
            }
            Shapes::Circles(circles) => {
                for ((left, top), diameter) in circles {
                    let (size, half) = (*diameter as c_int, *diameter as c_int / 2);
                    unsafe { gdImageFilledEllipse(image, left + half, top + half, size, size, colour) };
                }
            }
            Shapes::WholeFrame => unsafe { gdImageFilledRectangle(image, 0, 0, LAST, LAST, colour) },
        }
    }

    fn painted(&self) -> usize {
        let in_row = |y| (0..=LAST).filter(|x| unsafe { gdImageGetPixel(self.image, *x, y) } != 0).count();
        (0..=LAST).map(in_row).sum()
    }
}

impl Drop for Image {
    fn drop(&mut self) {
        unsafe { gdImageDestroy(self.image) };
    }
}
