//! Styled figures, which are not carried over: never run.

pub struct Styled<T, S>(T, S);

impl<T, S> Styled<T, S> {
    pub fn new(_: T, _: S) -> Self {
        unimplemented!()
    }
}

pub trait StyledDimensions {}

pub trait StyledDrawable {}
