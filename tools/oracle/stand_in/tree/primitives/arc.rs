//! A figure that is not carried over: its name only.

pub struct Arc;
