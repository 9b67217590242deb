//! Where the given text looks for `iterator::raw`.

pub mod raw;
