//! A figure that is not carried over: its names only.

pub struct CornerRadii;

pub struct CornerRadiiBuilder;

pub struct RoundedRectangle;
