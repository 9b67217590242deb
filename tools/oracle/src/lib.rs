//! embedded-graphics 0.8.2: the files that are given, as they are, over stand-ins for what is not (see build.rs).

// The given text names more than is run here, and a feature that is never on.
#![allow(dead_code, unused_imports, unexpected_cfgs)]

include!(concat!(env!("OUT_DIR"), "/tree/root.rs"));

pub use embedded_graphics_core::{pixelcolor, Drawable, Pixel};
