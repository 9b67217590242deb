//! A frame of 2,048 by 2,048 pixels written as an image file, and such a file read into a frame, each beside one `memcpy` of as many bytes.

use crate::ours::{image_size, read_image, write_image};
use crate::race::{Race, Work};
use std::hint::black_box;

const SIDE: u32 = 2_048;
const LITTLE: u32 = 0;
const BIG: u32 = 1;

const KINDS: [(&str, u32, u32, f64); 4] = [
    ("depth 1", 1, LITTLE, 1.2),
    ("depth 8", 8, LITTLE, 1.2),
    ("depth 24, big end first", 24, BIG, 1.2),
    ("depth 24, little end first", 24, LITTLE, 4.0),
];

pub fn races<'a>() -> Vec<Race<'a>> {
    let written = KINDS.map(|(kind, depth, order, goal)| written(kind, depth, order, goal));
    let behind = read("depth 1, the file 3 bytes behind a multiple of 16", 1, LITTLE, None, 3);
    let read = KINDS.map(|(kind, depth, order, goal)| read(kind, depth, order, Some(goal), 0));
    written.into_iter().chain(read).chain([behind]).collect()
}

fn written<'a>(kind: &str, depth: u32, order: u32, goal: f64) -> Race<'a> {
    let (frame, mut out) = frame_and_file(depth, order);
    Race {
        name: format!("a frame written as an image file, {kind}"),
        against: "one `memcpy`",
        goal: Some(goal),
        other: copied(&out),
        ours: Work::new(1, move || {
            write_image(black_box(&frame), SIDE, SIDE, depth, order, black_box(&mut out));
        }),
    }
}

/// The file begins so many bytes behind what the allocator hands out, which is a multiple of 16.
fn read<'a>(kind: &str, depth: u32, order: u32, goal: Option<f64>, behind: usize) -> Race<'a> {
    let (mut frame, file) = frame_and_file(depth, order);
    let mut room = vec![0; behind];
    room.extend_from_slice(&file);
    let right = frame.clone();
    frame.fill(0);
    read_image(&mut frame, SIDE, SIDE, depth, order, &room[behind..]);
    assert!(frame == right, "depth {depth}: our library read something else");
    Race {
        name: format!("an image file read into a frame, {kind}"),
        against: "one `memcpy`",
        goal,
        other: copied(&file),
        ours: Work::new(1, move || read_image(black_box(&mut frame), SIDE, SIDE, depth, order, black_box(&room[behind..]))),
    }
}

/// A frame, and its image file as our library writes it.
fn frame_and_file(depth: u32, order: u32) -> (Vec<u8>, Vec<u8>) {
    let frame: Vec<u8> = (0..SIDE * SIDE / 8 * depth).map(|i| (i.wrapping_mul(0x9e37_79b1) >> 24) as u8).collect();
    let length = image_size(SIDE, SIDE, depth);
    let mut out = vec![0; length];
    assert_eq!(write_image(&frame, SIDE, SIDE, depth, order, &mut out), length);
    hold(&frame, &out[length - frame.len()..], depth, order);
    (frame, out)
}

/// As many bytes copied as the file has, header and all.
fn copied<'a>(file: &[u8]) -> Work<'a> {
    let (source, mut copy) = (file.to_vec(), vec![0; file.len()]);
    Work::new(1, move || copy_all(black_box(&mut copy), black_box(&source)))
}

/// The file's pixels are the frame's, without padding here, each with its high byte first.
fn hold(frame: &[u8], pixels: &[u8], depth: u32, order: u32) {
    let pixel = depth.div_ceil(8) as usize;
    let turned = |(ours, theirs): (&[u8], &[u8])| if order == LITTLE { ours.iter().eq(theirs.iter().rev()) } else { ours == theirs };
    assert!(pixels.chunks(pixel).zip(frame.chunks(pixel)).all(turned), "depth {depth}: our library wrote something else");
}

#[inline(never)]
fn copy_all(to: &mut [u8], from: &[u8]) {
    to.copy_from_slice(from);
}
