//! Angles, for strokes; never run.

use super::Real;

pub(crate) mod angle_consts {}

pub(crate) trait Trigonometry {
    fn cos(self) -> Real;

    fn sin(self) -> Real;
}

#[derive(Copy, Clone, PartialEq, PartialOrd, Debug)]
pub struct Angle;

pub trait AngleUnit {}

impl Angle {
    pub fn from_degrees(_: f32) -> Self {
        unimplemented!()
    }
}

impl Trigonometry for Angle {
    fn cos(self) -> Real {
        unimplemented!()
    }

    fn sin(self) -> Real {
        unimplemented!()
    }
}
