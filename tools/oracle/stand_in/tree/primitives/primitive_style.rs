//! Styles, which are not carried over: their names only.

pub struct PrimitiveStyle;

pub struct PrimitiveStyleBuilder;

pub struct StrokeAlignment;
