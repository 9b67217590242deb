//! The lit pixels of a frame of 2,048 by 2,048 pixels, beside a plain sum of ones over the same bytes.

use crate::ours::lit;
use crate::race::{Race, Work};
use std::hint::black_box;

const SIDE: u32 = 2_048;

pub fn races<'a>() -> Vec<Race<'a>> {
    let frame: Vec<u8> = (0..SIDE * SIDE / 8).map(|i| (i.wrapping_mul(0x9e37_79b1) >> 24) as u8).collect();
    // A row has no padding, so that every one of the bytes is a pixel's.
    assert_eq!(lit(&frame, SIDE, SIDE), ones(&frame), "lit pixels: the sides disagree");
    let bytes = frame.clone();
    vec![Race {
        name: "the lit pixels of a frame".into(),
        against: "the Rust's `count_ones` of each byte",
        goal: Some(1.2),
        ours: Work::new(1, move || {
            black_box(lit(black_box(&frame), SIDE, SIDE));
        }),
        other: Work::new(1, move || {
            black_box(ones(black_box(&bytes)));
        }),
    }]
}

#[inline(never)]
fn ones(bytes: &[u8]) -> u32 {
    bytes.iter().map(|byte| byte.count_ones()).sum()
}
