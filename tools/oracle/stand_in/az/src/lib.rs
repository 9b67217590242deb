//! Stands in for the crate az: the one trait that line/mod.rs names, for strokes. It is never run.

pub trait SaturatingAs {
    fn saturating_as(self) -> i32;
}

impl SaturatingAs for u32 {
    fn saturating_as(self) -> i32 {
        unimplemented!()
    }
}
