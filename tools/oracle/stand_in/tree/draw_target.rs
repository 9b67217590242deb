//! Where the given text looks for `DrawTarget`.

pub use embedded_graphics_core::draw_target::DrawTarget;
