//! What the examples read: the wedge, six coordinates of a triangle, then a sample a line, second of day and Mbit/s; all parted by tabs. The input may have
//! any length.

use beamacorn::{Point, Refusal, Triangle};
use std::{
    fmt,
    io::{self, BufRead},
    iter, str,
};

const LONGEST: usize = 128;

/// Why an input has no answer.
pub enum Trouble {
    /// There are more than 4,294,967,295 samples.
    TooLong,
    /// The number of the first line that is no such line, and which field, counted from 1: 0, if it has another number of fields or more than 128 bytes.
    BadLine(u64, usize),
    /// The wedge is refused, or a call on a frame.
    Refused(Refusal),
    /// A read failed.
    Unread(io::Error),
}

impl From<Refusal> for Trouble {
    fn from(refusal: Refusal) -> Self {
        Trouble::Refused(refusal)
    }
}

impl fmt::Display for Trouble {
    fn fmt(&self, f: &mut fmt::Formatter<'_>) -> fmt::Result {
        match self {
            Trouble::TooLong => write!(f, "too long"),
            Trouble::BadLine(line, field) => write!(f, "bad line\t{line}\t{field}"),
            Trouble::Refused(refusal) => write!(f, "refused\t{}", refusal.number()),
            Trouble::Unread(error) => write!(f, "standard input: {error}"),
        }
    }
}

/// A line without its LF: as many bytes as a good line may have, and one. None at the end of the input.
fn next_line(input: &mut impl BufRead) -> io::Result<Option<Vec<u8>>> {
    let (mut line, mut some) = (Vec::new(), false);
    loop {
        let part = input.fill_buf()?;
        if part.is_empty() {
            return Ok(some.then_some(line));
        }
        let stop = part.iter().position(|&byte| byte == b'\n');
        let bytes = &part[..stop.unwrap_or(part.len())];
        let room = LONGEST + 1 - line.len();
        line.extend_from_slice(&bytes[..bytes.len().min(room)]);
        let used = bytes.len() + usize::from(stop.is_some());
        input.consume(used);
        some = true;
        if stop.is_some() {
            return Ok(Some(line));
        }
    }
}

/// An optional minus and one to ten digits that an `i32` holds.
fn coordinate(field: &[u8]) -> Option<i32> {
    let digits = field.strip_prefix(b"-").unwrap_or(field);
    if digits.len() > 10 || !digits.iter().all(u8::is_ascii_digit) {
        return None;
    }
    str::from_utf8(field).ok()?.parse().ok()
}

/// A line of `N` coordinates, parted by tabs; else which field is none, counted from 1, or 0 if they are not so many or the line is too long.
fn coordinates<const N: usize>(line: &[u8]) -> Result<[i32; N], usize> {
    let fields: Vec<&[u8]> = line.split(|&byte| byte == b'\t').collect();
    if line.len() > LONGEST || fields.len() != N {
        return Err(0);
    }
    let mut values = [0; N];
    for (field, (value, bytes)) in (1usize..).zip(values.iter_mut().zip(fields)) {
        *value = coordinate(bytes).ok_or(field)?;
    }
    Ok(values)
}

/// The wedge of the first line, which is accepted.
pub fn read_wedge(input: &mut impl BufRead) -> Result<Triangle, Trouble> {
    let line = next_line(input).map_err(Trouble::Unread)?.unwrap_or_default();
    let [x1, y1, x2, y2, x3, y3] = coordinates(&line).map_err(|field| Trouble::BadLine(1, field))?;
    let wedge = Triangle::new(Point::new(x1, y1), Point::new(x2, y2), Point::new(x3, y3));
    wedge.rows()?;
    Ok(wedge)
}

/// The samples of the lines behind it.
pub fn read_samples(input: &mut impl BufRead) -> impl Iterator<Item = Result<Point, Trouble>> {
    let mut read = 0u32;
    iter::from_fn(move || {
        let line = next_line(input).map_err(Trouble::Unread).transpose()?;
        Some(line.and_then(|line| {
            let [second, mbits] = coordinates(&line).map_err(|field| Trouble::BadLine(u64::from(read) + 2, field))?;
            read = read.checked_add(1).ok_or(Trouble::TooLong)?;
            Ok(Point::new(second, mbits))
        }))
    })
}
