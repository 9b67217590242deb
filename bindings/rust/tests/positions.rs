//! Every question and every call with numbers that differ in every position, held to what the proved program `replay` answers: bindings/cases, and its stored
//! list.

use beamacorn::{ByteOrder, Circle, ConnectedLine, Frame, Line, Point, Refusal, Triangle};
use std::{fs, path::Path};

/// What `replay` keeps from line to line: its buffer, the frame described last and how many bytes are lent to it, and the file buffer.
struct Session {
    buffer: Vec<u8>,
    frame: Frame,
    lent: usize,
    file: Vec<u8>,
}

impl Session {
    fn new() -> Self {
        Session { buffer: vec![0; 65_536], frame: Frame::packed(0, 0, 1, ByteOrder::LittleEndian), lent: 0, file: vec![0; 65_536] }
    }

    /// The answer to a line that is not bad, as `replay` gives it.
    fn answer(&mut self, line: &str) -> String {
        let fields: Vec<&str> = line.split('\t').collect();
        let number = |at: usize| fields[at + 1].parse::<i64>().unwrap();
        let i = |at: usize| i32::try_from(number(at)).unwrap();
        let u = |at: usize| u32::try_from(number(at)).unwrap();
        let size = |at: usize| usize::try_from(number(at)).unwrap();
        let byte = |at: usize| u8::try_from(number(at)).unwrap();
        let p = |at: usize| Point::new(i(at), i(at + 1));
        let line = || Line::new(p(0), p(2));
        let connected = || ConnectedLine::new(p(0), p(2));
        let triangle = || Triangle::new(p(0), p(2), p(4));
        let circle = || Circle::new(p(0), u(2));
        let frame = self.frame;
        let buf = &mut self.buffer[..self.lent];
        match fields[0] {
            "length" => said(line().length().map(value)),
            "point" => said(line().point(u(4)).map(place)),
            "online" => said(line().has_point(p(4)).map(value)),
            "tracelength" => said(connected().length().map(value)),
            "tracepoint" => said(connected().point(u(4)).map(place)),
            "ontrace" => said(connected().has_point(p(4)).map(value)),
            "inside" => said(triangle().contains(p(6)).map(value)),
            "rows" => said(triangle().rows().map(|rows| [rows.start.into(), rows.len() as i64])),
            "span" => said(triangle().row_span(i(6)).map(|row| [row.start, row.end].map(i64::from))),
            "disc" => said(circle().contains(p(3)).map(value)),
            "discspan" => said(circle().row_span(i(3)).map(|row| [row.start, row.end].map(i64::from))),
            "pixel" => said(frame.set_pixel(buf, p(0), u(2)).map(value)),
            "read" => said(frame.pixel(buf, p(0)).map(value)),
            "lit" => said(frame.lit(buf).map(value)),
            "fill" => said(frame.fill(buf, u(0)).map(value)),
            "line" => said(frame.draw_line(buf, line(), u(4)).map(value)),
            "trace" => said(frame.draw_connected_line(buf, connected(), u(4)).map(value)),
            "triangle" => said(frame.draw_triangle(buf, triangle(), u(6)).map(value)),
            "outline" => said(frame.draw_outline(buf, triangle(), u(6)).map(value)),
            "circle" => said(frame.draw_circle(buf, circle(), u(3)).map(value)),
            "imagesize" => said(frame.image_size().map(bytes)),
            "image" => said(frame.write_image(buf, &mut self.file[..size(0)]).map(bytes)),
            "load" => said(frame.read_image(buf, &self.file[..size(0)]).map(|()| [])),
            "frame" => {
                let order = if u(3) == 0 { ByteOrder::LittleEndian } else { ByteOrder::BigEndian };
                self.frame = Frame::packed(u(0), u(1), u(2), order).with_distance(u(5));
                self.lent = size(4);
                self.buffer.fill(0);
                said(self.frame.size().map(bytes))
            }
            "preset" => {
                self.buffer.fill(byte(0));
                said(Ok([]))
            }
            "wipe" => {
                self.file.fill(byte(0));
                said(Ok([]))
            }
            "bytes" => {
                for (at, pair) in (size(0)..).zip(fields[2].as_bytes().chunks(2)) {
                    self.file[at] = u8::from_str_radix(str::from_utf8(pair).unwrap(), 16).unwrap();
                }
                said(Ok([]))
            }
            "dump" => shown(&self.buffer[size(0)..][..size(1)]),
            "file" => shown(&self.file[size(0)..][..size(1)]),
            word => panic!("{word} is no word of replay"),
        }
    }
}

fn value(value: impl Into<i64>) -> [i64; 1] {
    [value.into()]
}

fn bytes(bytes: usize) -> [i64; 1] {
    [bytes as i64]
}

fn place(point: Point) -> [i64; 2] {
    [point.x, point.y].map(i64::from)
}

/// The number and the values; with a refusal as many zeros.
fn said<const N: usize>(answer: Result<[i64; N], Refusal>) -> String {
    let (number, values) = match answer {
        Ok(values) => (0, values),
        Err(refusal) => (refusal.number(), [0; N]),
    };
    values.iter().fold(number.to_string(), |line, value| format!("{line}\t{value}"))
}

fn shown(bytes: &[u8]) -> String {
    bytes.iter().map(|byte| format!("{byte:02x}")).collect()
}

fn file(path: &str) -> String {
    let root = Path::new(env!("CARGO_MANIFEST_DIR")).join("../..");
    fs::read_to_string(root.join(path)).unwrap()
}

/// Each line must have the answer beside it. How many there are, bad ones left aside, which change nothing.
fn hold<'a>(pairs: impl Iterator<Item = (&'a str, &'a str)>) -> usize {
    let (mut session, mut asked) = (Session::new(), 0);
    for (line, right) in pairs.filter(|(_, right)| *right != "bad line") {
        assert_eq!(session.answer(line), right, "{line}");
        asked += 1;
    }
    asked
}

#[test]
fn every_position_has_its_number() {
    let cases = file("bindings/cases").replace(' ', "\t");
    assert!(hold(cases.lines().filter_map(|case| case.split_once("\t->\t"))) > 100);
}

#[test]
fn the_stored_list_has_its_answers() {
    let (lines, answers) = (file("crates/replay/stdin"), file("crates/replay/stdout"));
    assert!(hold(lines.lines().zip(answers.lines())) > 10_000);
}
