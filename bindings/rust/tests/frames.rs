//! Frames through the crate's own type: the known small answers, each refusal in its order, what a call changes and what it leaves, and image files.

use beamacorn::{ByteOrder, Circle, ConnectedLine, Frame, Line, Point, Refusal, Triangle};
use std::{collections::HashSet, slice};

const ORDERS: [ByteOrder; 2] = [ByteOrder::LittleEndian, ByteOrder::BigEndian];
const DEPTHS: [u32; 7] = [1, 2, 4, 8, 16, 24, 32];
const HERE: Point = Point::new(0, 0);
const FAR: Point = Point::new(131_072, 0);

fn little(width: u32, height: u32, depth: u32) -> Frame {
    Frame::packed(width, height, depth, ByteOrder::LittleEndian)
}

/// The places of a frame, row by row.
fn places(frame: Frame) -> impl Iterator<Item = Point> {
    let (width, height) = (frame.width() as i32, frame.height() as i32);
    (0..height).flat_map(move |y| (0..width).map(move |x| Point::new(x, y)))
}

/// The largest colour of a depth.
fn last_colour(depth: u32) -> u32 {
    u32::MAX >> (32 - depth)
}

/// A colour for every place, most of them different.
fn colour_at(frame: Frame, place: Point) -> u32 {
    (place.x as u32 * 0x0001_0307 + place.y as u32 * 0x0505_1101 + 1) & last_colour(frame.depth())
}

/// A buffer whose frame has a colour for every place; what is not a pixel is as it was preset.
fn drawn(frame: Frame, preset: u8) -> Vec<u8> {
    let mut buf = vec![preset; frame.size().unwrap() + 5];
    for place in places(frame) {
        assert_eq!(frame.set_pixel(&mut buf, place, colour_at(frame, place)), Ok(true));
    }
    buf
}

fn image(frame: Frame, buf: &[u8]) -> Vec<u8> {
    let mut file = vec![0; frame.image_size().unwrap()];
    assert_eq!(frame.write_image(buf, &mut file), Ok(file.len()));
    file
}

/// Every call that draws a figure, on the same corners.
fn figures(frame: Frame, buf: &mut [u8], corners: [Point; 3], diameter: u32, colour: u32) -> [Result<u32, Refusal>; 5] {
    let [a, b, c] = corners;
    [
        frame.draw_line(buf, Line::new(a, b), colour),
        frame.draw_connected_line(buf, ConnectedLine::new(a, b), colour),
        frame.draw_triangle(buf, Triangle::new(a, b, c), colour),
        frame.draw_outline(buf, Triangle::new(a, b, c), colour),
        frame.draw_circle(buf, Circle::new(a, diameter), colour),
    ]
}

#[test]
fn a_description_keeps_its_parts() {
    let frame = Frame::packed(250, 122, 1, ByteOrder::BigEndian);
    let parts = |frame: Frame| (frame.width(), frame.height(), frame.depth(), frame.order(), frame.distance());
    assert_eq!(parts(frame), (250, 122, 1, ByteOrder::BigEndian, 32));
    assert_eq!(parts(frame.with_distance(64)), (250, 122, 1, ByteOrder::BigEndian, 64));
    assert_eq!(frame.with_distance(64).with_distance(32), frame);
    let different = [frame, frame.with_distance(64), little(250, 122, 1), little(122, 250, 1), little(250, 122, 2)];
    assert_eq!(HashSet::from(different).len(), 5);
}

#[test]
fn a_packed_frame_has_rows_without_a_gap() {
    for (width, depth, distance) in [(0, 1, 0), (1, 1, 1), (8, 1, 1), (9, 1, 2), (9, 2, 3), (7, 24, 21), (2_048, 32, 8_192)] {
        assert_eq!(little(width, 1, depth).distance(), distance);
        assert_eq!(little(width, 3, depth).size(), Ok(3 * distance as usize));
    }
    // What 32 bits do not hold is 0, and what they hold is kept.
    assert_eq!(little(u32::MAX, 1, 8).distance(), u32::MAX);
    assert_eq!(little(u32::MAX, 1, 9).distance(), 0);
    assert_eq!(little(u32::MAX, 1, u32::MAX).distance(), 0);
    assert_eq!(little(u32::MAX, 1, u32::MAX).size(), Err(Refusal::BAD_DEPTH));
    assert_eq!(little(u32::MAX, 1, 32).size(), Err(Refusal::TOO_LARGE));
}

#[test]
fn the_known_pixels_have_their_bytes() {
    let mut row = [0; 2];
    assert_eq!(little(10, 1, 1).set_pixel(&mut row, Point::new(9, 0), 1), Ok(true));
    assert_eq!(row, [0, 0x40]);
    for (depth, colour, byte) in [(2, 3, 0x30), (4, 10, 0x0A)] {
        let mut buf = [0];
        assert_eq!(little(2, 1, depth).set_pixel(&mut buf, Point::new(1, 0), colour), Ok(true));
        assert_eq!(buf, [byte]);
    }
    for (order, bytes) in ORDERS.into_iter().zip([[3, 2, 1], [1, 2, 3]]) {
        let mut buf = [0; 3];
        assert_eq!(Frame::packed(1, 1, 24, order).set_pixel(&mut buf, HERE, 0x010203), Ok(true));
        assert_eq!(buf, bytes);
    }
}

#[test]
fn the_known_frames_have_their_sizes() {
    assert_eq!(little(10, 3, 1).size(), Ok(6));
    assert_eq!(little(9, 5, 2).size(), Ok(15));
    assert_eq!(little(7, 2, 24).size(), Ok(42));
    assert_eq!(little(2_048, 2_048, 32).with_distance(16_384).size(), Ok(33_554_432));
    assert_eq!([little(2_048, 1, 1).size(), little(1, 2_048, 1).size()], [Ok(256), Ok(2_048)]);
    assert_eq!([little(2_049, 1, 1).size(), little(1, 2_049, 1).size()], [Err(Refusal::TOO_LARGE); 2]);
}

#[test]
fn the_ends_of_the_range_are_drawn_and_what_lies_past_them_is_refused() {
    let (frame, mut buf) = (little(8, 1, 1), [0]);
    let [low, high] = [-131_072, 131_071].map(|x| Point::new(x, 0));
    assert_eq!(frame.draw_line(&mut buf, Line::new(low, high), 1), Ok(8));
    assert_eq!(frame.draw_connected_line(&mut buf, ConnectedLine::new(high, low), 1), Ok(8));
    assert_eq!(frame.draw_triangle(&mut buf, Triangle::new(low, high, high), 1), Ok(8));
    assert_eq!(frame.draw_outline(&mut buf, Triangle::new(low, low, high), 0), Ok(8));
    assert_eq!(frame.draw_circle(&mut buf, Circle::new(high, 1), 1), Ok(0));
    assert_eq!(frame.draw_circle(&mut buf, Circle::new(high, 2), 1), Err(Refusal::CIRCLE_TOO_FAR));
    for corners in [[FAR, HERE, HERE], [HERE, FAR, HERE], [HERE, HERE, FAR]] {
        let refused = figures(frame, &mut buf, corners, 2, 1).map(|answer| answer == Err(Refusal::OUT_OF_BOUNDS));
        let [a, b, _] = corners.map(|corner| corner == FAR);
        assert_eq!(refused, [a | b, a | b, true, true, a]);
    }
}

/// Every call on a frame's bytes, with nothing right but the frame and the buffer that it is given: the colour, the figure, the pixel, the output and the file.
fn wrong_calls(frame: Frame, buf: &mut [u8]) -> [Result<(), Refusal>; 11] {
    let pixel = frame.pixel(buf, FAR).map(drop);
    let [line, connected, triangle, outline, circle] = figures(frame, buf, [FAR; 3], u32::MAX, u32::MAX).map(|answer| answer.map(drop));
    [
        pixel,
        frame.lit(buf).map(drop),
        frame.write_image(buf, &mut []).map(drop),
        frame.read_image(buf, &[]),
        frame.set_pixel(buf, FAR, u32::MAX).map(drop),
        frame.fill(buf, u32::MAX).map(drop),
        line,
        connected,
        triangle,
        outline,
        circle,
    ]
}

#[test]
fn the_frame_and_its_buffer_are_judged_first_and_no_byte_changes() {
    let mut buf = [0xA5; 10];
    for order in ORDERS {
        let right = Frame::packed(10, 3, 2, order);
        for (frame, number) in [
            (Frame::packed(2_049, 3, 3, order).with_distance(0), Refusal::BAD_DEPTH),
            (Frame::packed(2_049, 3, 2, order).with_distance(0), Refusal::TOO_LARGE),
            (Frame::packed(10, 2_049, 2, order).with_distance(0), Refusal::TOO_LARGE),
            (right.with_distance(2), Refusal::BAD_DISTANCE),
            (right.with_distance(16_385), Refusal::BAD_DISTANCE),
        ] {
            assert_eq!((frame.size(), frame.image_size()), (Err(number), Err(number)));
            assert_eq!(wrong_calls(frame, &mut buf[..8]), [Err(number); 11]);
        }
        assert_eq!(wrong_calls(right, &mut buf[..8]), [Err(Refusal::SHORT_BUFFER); 11]);
        assert_eq!(wrong_calls(right, &mut []), [Err(Refusal::SHORT_BUFFER); 11]);
        assert_eq!(right.image_size(), Err(Refusal::UNFIT_FRAME));
        let [pixel, lit, written, read, colours @ ..] = wrong_calls(right, &mut buf);
        assert_eq!((pixel, [lit, written, read]), (Err(Refusal::OUTSIDE_FRAME), [Err(Refusal::UNFIT_FRAME); 3]));
        assert_eq!(colours, [Err(Refusal::BAD_COLOUR); 7]);
    }
    assert_eq!(buf, [0xA5; 10]);
}

#[test]
fn a_figure_is_judged_behind_the_frame_and_the_colour_and_no_byte_changes() {
    for depth in DEPTHS {
        let frame = little(3, 2, depth);
        let mut buf = vec![0xA5; frame.size().unwrap()];
        let last = last_colour(depth);
        if let Some(past) = last.checked_add(1) {
            assert_eq!(figures(frame, &mut buf, [FAR; 3], u32::MAX, past), [Err(Refusal::BAD_COLOUR); 5]);
        }
        assert_eq!(figures(frame, &mut buf, [FAR; 3], u32::MAX, last), [Err(Refusal::OUT_OF_BOUNDS); 5]);
        assert_eq!(frame.draw_circle(&mut buf, Circle::new(HERE, u32::MAX), last), Err(Refusal::CIRCLE_TOO_FAR));
        assert_eq!(buf, vec![0xA5; buf.len()]);
    }
}

#[test]
fn an_empty_buffer_is_enough_for_no_pixels() {
    for frame in [little(0, 2_048, 32), little(2_048, 0, 1)] {
        assert_eq!((frame.size(), frame.fill(&mut [], 1)), (Ok(0), Ok(0)));
        assert_eq!(figures(frame, &mut [], [HERE; 3], 9, 1), [Ok(0); 5]);
        assert_eq!(frame.set_pixel(&mut [], HERE, 1), Ok(false));
        assert_eq!(frame.pixel(&[], HERE), Err(Refusal::OUTSIDE_FRAME));
        assert_eq!(frame.write_image(&[], &mut []), Err(Refusal::UNFIT_FRAME));
        assert_eq!(frame.read_image(&mut [], &[]), Err(Refusal::UNFIT_FRAME));
    }
    assert_eq!(little(0, 2_048, 1).lit(&[]), Ok(0));
    assert_eq!(little(1, 1, 1).set_pixel(&mut [], HERE, 1), Err(Refusal::SHORT_BUFFER));
}

#[test]
fn a_pixel_that_is_set_reads_back_and_one_outside_changes_nothing() {
    for (depth, order) in DEPTHS.into_iter().flat_map(|depth| ORDERS.map(|order| (depth, order))) {
        let frame = Frame::packed(5, 3, depth, order);
        let mut buf = drawn(frame, 0);
        assert!(places(frame).all(|place| frame.pixel(&buf, place) == Ok(colour_at(frame, place))));
        let before = buf.clone();
        for outside in [(5, 0), (0, 3), (-1, 0), (0, -1), (i32::MIN, i32::MAX)].map(Point::from) {
            assert_eq!(frame.set_pixel(&mut buf, outside, 1), Ok(false));
            assert_eq!(frame.pixel(&buf, outside), Err(Refusal::OUTSIDE_FRAME));
        }
        assert_eq!(buf, before);
    }
}

/// Which bits of the buffer are another than they were preset to, the highest of each byte first.
fn changed(buf: &[u8], preset: u8) -> Vec<bool> {
    buf.iter().flat_map(|byte| (0..8).map(move |bit| (byte ^ preset) & (0x80 >> bit) != 0)).collect()
}

/// Which of them are a pixel's.
fn of_pixels(frame: Frame, buf: &[u8]) -> Vec<bool> {
    let (row, within) = (8 * frame.distance() as usize, (frame.width() * frame.depth()) as usize);
    (0..8 * buf.len()).map(|bit| bit / row < frame.height() as usize && bit % row < within).collect()
}

#[test]
fn padding_gaps_and_tail_never_change() {
    let corners = [(-3, -2), (9, 1), (2, 7)].map(Point::from);
    for (depth, order) in DEPTHS.into_iter().flat_map(|depth| ORDERS.map(|order| (depth, order))) {
        let packed = Frame::packed(5, 3, depth, order);
        for (gap, preset) in [(0, 0), (0, 0xFF), (1, 0), (1, 0xFF), (7, 0), (7, 0xFF)] {
            let frame = packed.with_distance(packed.distance() + gap);
            let mut buf = vec![preset; frame.size().unwrap() + 5];
            let pixels = of_pixels(frame, &buf);
            let other = if preset == 0 { last_colour(depth) } else { 0 };
            assert_eq!(frame.fill(&mut buf, other), Ok(15));
            assert_eq!(changed(&buf, preset), pixels);

            assert!(figures(frame, &mut buf, corners, 6, colour_at(frame, HERE)).iter().all(|count| count.unwrap() > 0));
            for left in [&buf, &drawn(frame, preset)] {
                assert!(changed(left, preset).iter().zip(&pixels).all(|(changed, pixel)| changed <= pixel));
            }
        }
    }
}

#[test]
fn the_order_turns_the_bytes_of_a_pixel_and_has_no_effect_at_8_and_below() {
    for depth in DEPTHS {
        let [little, big] = ORDERS.map(|order| drawn(Frame::packed(5, 3, depth, order), 0x3C));
        let mut turned = big;
        let frame = Frame::packed(5, 3, depth, ByteOrder::BigEndian);
        turned[..frame.size().unwrap()].chunks_mut((depth as usize).div_ceil(8)).for_each(<[u8]>::reverse);
        assert_eq!(little, turned);
    }
}

/// Draws a figure and holds pixels and count to a question: every pixel of the frame that it says yes to, and no other.
fn shows(draw: impl Fn(Frame, &mut [u8]) -> Result<u32, Refusal>, has: impl Fn(Point) -> bool) {
    let frame = little(9, 7, 4).with_distance(6);
    let mut buf = vec![0; frame.size().unwrap()];
    assert_eq!(draw(frame, &mut buf), Ok(places(frame).filter(|&place| has(place)).count() as u32));
    assert!(places(frame).all(|place| frame.pixel(&buf, place) == Ok(if has(place) { 9 } else { 0 })));
}

#[test]
fn a_drawn_figure_has_the_pixels_that_it_is_asked_for_and_their_count() {
    for corners in [
        [(1, 1), (7, 3), (4, 6)],
        [(-3, -2), (12, 4), (3, 9)],
        [(8, 0), (2, 6), (0, 0)],
        [(4, 4), (4, 4), (4, 4)],
        [(20, 1), (30, 2), (9, 9)],
    ] {
        let [a, b, c] = corners.map(Point::from);
        let (line, connected, triangle) = (Line::new(a, b), ConnectedLine::new(a, b), Triangle::new(a, b, c));
        shows(|frame, buf| frame.draw_line(buf, line, 9), |place| line.has_point(place).unwrap());
        shows(|frame, buf| frame.draw_connected_line(buf, connected, 9), |place| connected.has_point(place).unwrap());
        shows(|frame, buf| frame.draw_triangle(buf, triangle, 9), |place| triangle.contains(place).unwrap());
        let mut sorted = [a, b, c];
        sorted.sort_by_key(|corner| (corner.y, corner.x));
        let edges = [(0, 1), (0, 2), (1, 2)].map(|(from, to)| Line::new(sorted[from], sorted[to]));
        shows(|frame, buf| frame.draw_outline(buf, triangle, 9), |place| edges.iter().any(|edge| edge.has_point(place).unwrap()));
        for diameter in [0, 1, 4, 11] {
            let circle = Circle::new(a, diameter);
            shows(|frame, buf| frame.draw_circle(buf, circle, 9), |place| circle.contains(place).unwrap());
        }
    }
}

#[test]
fn lit_pixels_are_those_that_read_1() {
    for (frame, preset) in [(little(10, 3, 1), 0), (little(10, 3, 1), 0xFF), (little(10, 3, 1).with_distance(5), 0xFF)] {
        let buf = drawn(frame, preset);
        let lit = places(frame).filter(|&place| frame.pixel(&buf, place) == Ok(1)).count();
        assert!(0 < lit && lit < 30);
        assert_eq!(frame.lit(&buf), Ok(lit as u32));
    }
}

#[test]
fn an_image_file_reads_back_to_the_same_picture() {
    for (depth, magic) in [(1, "P4\n5 3\n"), (8, "P5\n5 3\n255\n"), (24, "P6\n5 3\n255\n")] {
        let frames = ORDERS.map(|order| Frame::packed(5, 3, depth, order));
        let frames = frames.into_iter().flat_map(|frame| [frame, frame.with_distance(frame.distance() + 3)]);
        let frames: Vec<(Frame, u8)> = frames.flat_map(|frame| [0, 0xFF].map(|preset| (frame, preset))).collect();
        let file = image(frames[0].0, &drawn(frames[0].0, 0));
        assert!(file.starts_with(magic.as_bytes()));
        for &(frame, preset) in &frames {
            let picture = drawn(frame, preset);
            assert_eq!(image(frame, &picture), file);
            let mut read = vec![preset; picture.len()];
            assert_eq!(frame.read_image(&mut read, &file), Ok(()));
            assert_eq!(read, picture);
        }
    }
}

#[test]
fn a_file_is_written_into_its_own_bytes_or_not_at_all() {
    let (frame, buf) = (little(10, 3, 1), [0x80, 0x3F, 0x00, 0x7F, 0xFF, 0xFF]);
    let mut out = [0xA5; 16];
    for room in 0..14 {
        assert_eq!(frame.write_image(&buf, &mut out[..room]), Err(Refusal::SHORT_OUTPUT));
    }
    assert_eq!(out, [0xA5; 16]);
    assert_eq!((frame.image_size(), frame.write_image(&buf, &mut out)), (Ok(14), Ok(14)));
    assert_eq!(&out, b"P4\n10 3\n\x80\x00\x00\x40\xFF\xC0\xA5\xA5");
}

#[test]
fn a_file_that_is_none_for_the_frame_is_refused_and_no_byte_changes() {
    let frame = little(2, 1, 8);
    let mut buf = [1, 2, 0xA5];
    for (file, number) in [
        (&b""[..], Refusal::BAD_HEADER),
        (b"P6\n2 1\n255\n12", Refusal::BAD_HEADER),
        (b"P5\n# by hand\n2 1\n255\n12", Refusal::BAD_HEADER),
        (b"P5\n2 1\n254\n12", Refusal::BAD_HEADER),
        (b"P5\n2 1\n255", Refusal::BAD_HEADER),
        (b"P5\n1 2\n255\n", Refusal::OTHER_SIZE),
        (b"P5\n2 1\n255\n", Refusal::SHORT_FILE),
        (b"P5\n2 1\n255\n1", Refusal::SHORT_FILE),
    ] {
        assert_eq!(frame.read_image(&mut buf, file), Err(number), "{}", file.escape_ascii());
    }
    assert_eq!(buf, [1, 2, 0xA5]);
    assert_eq!(frame.read_image(&mut buf, b"P5 02\t\t1\r\n255 \n# and more"), Ok(()));
    assert_eq!(buf, [b'\n', b'#', 0xA5]);
}

#[test]
fn a_call_takes_the_slice_that_it_is_lent_and_no_byte_beside_it() {
    let frame = little(8, 1, 1);
    let mut bytes = [0; 3];
    let [_, lent, _] = &mut bytes;
    assert_eq!(frame.fill(slice::from_mut(lent), 1), Ok(8));
    assert_eq!(bytes, [0, 0xFF, 0]);
}
