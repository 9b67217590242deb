//! The number type of strokes and angles; never run.

#[derive(Copy, Clone, PartialEq, PartialOrd, Debug)]
pub struct Real;

impl From<i32> for Real {
    fn from(_: i32) -> Self {
        unimplemented!()
    }
}

impl From<Real> for i32 {
    fn from(_: Real) -> Self {
        unimplemented!()
    }
}

impl core::ops::Mul for Real {
    type Output = Real;

    fn mul(self, _: Real) -> Real {
        unimplemented!()
    }
}
