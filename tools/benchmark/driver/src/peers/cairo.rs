//! cairo, as its header cairo.h declares it: image surfaces of 1, 8, 16 and 32 bits a pixel, not smoothed, each colour stored as it is.

use crate::{
    expected::{painted, SIDE},
    inputs::Vertices,
    ours::Place,
    shapes::{Disc, Shapes, Side},
};
use std::{
    f64::consts::TAU,
    ffi::{c_char, c_int, CStr},
    slice,
};

#[repr(C)]
struct CairoSurface {
    _private: [u8; 0],
}

#[repr(C)]
struct CairoContext {
    _private: [u8; 0],
}

#[rustfmt::skip]
extern "C" {
    fn cairo_version_string() -> *const c_char;
    fn cairo_image_surface_create_for_data(data: *mut u8, format: c_int, width: c_int, height: c_int, stride: c_int) -> *mut CairoSurface;
    fn cairo_image_surface_get_data(surface: *mut CairoSurface) -> *const u8;
    fn cairo_image_surface_get_stride(surface: *mut CairoSurface) -> c_int;
    fn cairo_surface_flush(surface: *mut CairoSurface);
    fn cairo_surface_destroy(surface: *mut CairoSurface);
    fn cairo_create(surface: *mut CairoSurface) -> *mut CairoContext;
    fn cairo_destroy(context: *mut CairoContext);
    fn cairo_status(context: *mut CairoContext) -> c_int;
    fn cairo_set_antialias(context: *mut CairoContext, antialias: c_int);
    fn cairo_set_operator(context: *mut CairoContext, operator: c_int);
    fn cairo_set_line_cap(context: *mut CairoContext, cap: c_int);
    fn cairo_set_line_width(context: *mut CairoContext, width: f64);
    fn cairo_set_source_rgba(context: *mut CairoContext, red: f64, green: f64, blue: f64, alpha: f64);
    fn cairo_move_to(context: *mut CairoContext, x: f64, y: f64);
    fn cairo_line_to(context: *mut CairoContext, x: f64, y: f64);
    fn cairo_close_path(context: *mut CairoContext);
    fn cairo_arc(context: *mut CairoContext, x: f64, y: f64, radius: f64, from: f64, to: f64);
    fn cairo_stroke(context: *mut CairoContext);
    fn cairo_fill(context: *mut CairoContext);
    fn cairo_paint(context: *mut CairoContext);
}

const ANTIALIAS_NONE: c_int = 1;
const OPERATOR_SOURCE: c_int = 1;
const LINE_CAP_SQUARE: c_int = 2;

/// A format of image surfaces, by its number in the header.
#[derive(Clone, Copy)]
pub enum Format {
    Argb32 = 0,
    A8 = 2,
    A1 = 3,
    Rgb16 = 4,
}

impl Format {
    fn depth(self) -> u32 {
        match self {
            Format::A1 => 1,
            Format::A8 => 8,
            Format::Rgb16 => 16,
            Format::Argb32 => 32,
        }
    }
}

pub fn version() -> String {
    unsafe { CStr::from_ptr(cairo_version_string()) }.to_string_lossy().into_owned()
}

pub struct Surface {
    surface: *mut CairoSurface,
    context: *mut CairoContext,
    depth: u32,
}

impl Surface {
    /// Draws into bytes that it is lent and that must outlive it, those of our own frame: the two take turns on one memory, whose pages favour neither.
    pub fn over(bytes: &mut [u8], format: Format) -> Self {
        let stride = SIDE * format.depth() as usize / 8;
        assert_eq!(bytes.len(), stride * SIDE, "the surface needs other bytes");
        unsafe {
            let (side, stride) = (SIDE as c_int, stride as c_int);
            let surface = cairo_image_surface_create_for_data(bytes.as_mut_ptr(), format as c_int, side, side, stride);
            let context = cairo_create(surface);
            cairo_set_antialias(context, ANTIALIAS_NONE);
            cairo_set_operator(context, OPERATOR_SOURCE);
            cairo_set_line_width(context, 1.0);
            // So that a line has the pixels of both its ends.
            cairo_set_line_cap(context, LINE_CAP_SQUARE);
            cairo_set_source_rgba(context, 0.65, 0.76, 0.59, 1.0);
            Surface { surface, context, depth: format.depth() }
        }
    }

    fn line(&self, [start, end]: [Place; 2]) {
        self.begin(start);
        self.go_on(end);
        unsafe { cairo_stroke(self.context) };
    }

    fn triangle(&self, [v1, v2, v3]: Vertices) {
        self.begin(v1);
        self.go_on(v2);
        self.go_on(v3);
        unsafe {
            cairo_close_path(self.context);
            cairo_fill(self.context);
        }
    }

    fn circle(&self, ((left, top), diameter): Disc) {
        let radius = f64::from(diameter) / 2.0;
        unsafe {
            cairo_arc(self.context, f64::from(left) + radius, f64::from(top) + radius, radius, 0.0, TAU);
            cairo_fill(self.context);
        }
    }

    fn begin(&self, place: Place) {
        let (x, y) = middle(place);
        unsafe { cairo_move_to(self.context, x, y) };
    }

    fn go_on(&self, place: Place) {
        let (x, y) = middle(place);
        unsafe { cairo_line_to(self.context, x, y) };
    }
}

/// A pixel reaches from its place to the next; its middle is half a pixel on.
fn middle((x, y): Place) -> (f64, f64) {
    (f64::from(x) + 0.5, f64::from(y) + 0.5)
}

impl Side for Surface {
    fn draw(&mut self, shapes: &Shapes) {
        match shapes {
            Shapes::Pixels(_) => unreachable!("cairo has no call that sets one pixel"),
            Shapes::Lines(lines) => lines.iter().for_each(|ends| self.line(*ends)),
            Shapes::Triangles(triangles) => triangles.iter().for_each(|vertices| self.triangle(*vertices)),
            Shapes::Circles(circles) => circles.iter().for_each(|disc| self.circle(*disc)),
            Shapes::WholeFrame => unsafe { cairo_paint(self.context) },
        }
        // Nothing is left for later.
        unsafe { cairo_surface_flush(self.surface) };
    }

    fn painted(&self) -> usize {
        let bytes = unsafe {
            assert_eq!(cairo_status(self.context), 0, "cairo refused");
            let stride = cairo_image_surface_get_stride(self.surface) as usize;
            assert_eq!(stride * 8, SIDE * self.depth as usize, "cairo's rows have a gap");
            slice::from_raw_parts(cairo_image_surface_get_data(self.surface), stride * SIDE)
        };
        painted(bytes, self.depth)
    }
}

impl Drop for Surface {
    fn drop(&mut self) {
        unsafe {
            cairo_destroy(self.context);
            cairo_surface_destroy(self.surface);
        }
    }
}
