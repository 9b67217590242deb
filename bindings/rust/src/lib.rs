//! Lines, triangles, circles and packed frames with the names of embedded-graphics, answered by a library that is proved exact for every input.
//!
//! The questions are those of the original, but an answer is a [`Result`]: a figure whose coordinates are out of bounds is
//! [refused](Refusal), which is not the same as "no". Nothing here wraps, panics or allocates.
//!
//! ```
//! use beamacorn::{Point, Refusal, Triangle};
//!
//! // Planned load: seconds of the day against Mbit/s.
//! let wedge = Triangle::new(Point::new(0, 0), Point::new(86_400, 0), Point::new(0, 40_000));
//! assert_eq!(wedge.contains(Point::new(20_000, 10_000)), Ok(true));
//!
//! let far = Triangle::new(Point::new(0, 0), Point::new(131_072, 0), Point::new(0, 1));
//! assert_eq!(far.contains(Point::new(0, 0)), Err(Refusal::OUT_OF_BOUNDS));
//! ```
//!
//! A [`Frame`] describes pixels in bytes that the caller lends, and draws figures into them, reads them, and writes them as an image file:
//!
//! ```
//! use beamacorn::{ByteOrder, Frame, Line, Point};
//!
//! let pane = Frame::packed(320, 200, 1, ByteOrder::LittleEndian);
//! let mut buf = vec![0; pane.size()?];
//! let on = Line::new(Point::new(300, 100), Point::new(900, 400));
//! let below = Line::new(Point::new(0, 250), Point::new(319, 300));
//! assert_eq!(pane.draw_line(&mut buf, on, 1), Ok(20));
//! assert_eq!(pane.draw_line(&mut buf, below, 1), Ok(0));
//! assert_eq!(pane.lit(&buf), Ok(20));
//!
//! let mut file = vec![0; pane.image_size()?];
//! pane.write_image(&buf, &mut file)?;
//! assert!(file.starts_with(b"P4\n320 200\n"));
//! # Ok::<(), beamacorn::Refusal>(())
//! ```
//!
//! # The range
//!
//! Coordinates of line ends, vertices and a circle's top-left corner are accepted from -131,072 to 131,071. A pixel or a row that is asked about, or set,
//! may have any. A frame has at most 2,048 by 2,048 pixels, and its rows at most 16,384 bytes from one to the next.
//!
//! What is larger must be counted in a larger unit before it is asked about: 160,000 Mbit/s are 16,000 units of 10 Mbit/s. The answer is then that of the
//! coarser grid, and a sample within one unit of an edge may count otherwise. The 604,800 seconds of a week do not fit: use the second of the day or the
//! minute of the week.
//!
//! # Refused is not no
//!
//! Never write `.unwrap_or(false)` behind [`contains`](Triangle::contains): it makes a wedge that is out of range one that contains nothing, and a busy
//! link is billed as idle. Hand the refusal on with `?`, or count it.

#![no_std]

#[cfg(all(no_archive, not(doc)))]
compile_error!(env!("NO_ARCHIVE"));

// The examples of the page for those who come from embedded-graphics are tests too.
#[cfg(doctest)]
#[doc = include_str!("../../../docs/FROM-EMBEDDED-GRAPHICS.md")]
struct FromEmbeddedGraphics;

mod circle;
mod connected;
mod contains;
mod filled;
mod frame;
#[allow(unsafe_code)]
mod library;
mod line;
mod point;
mod points;
mod rectangle;
mod refusal;
mod triangle;

pub use circle::Circle;
pub use connected::ConnectedLine;
pub use contains::ContainsPoint;
pub use filled::FilledPoints;
pub use frame::{ByteOrder, Frame};
pub use line::Line;
pub use point::Point;
pub use points::Points;
pub use rectangle::{Rectangle, Size};
pub use refusal::{NoRefusal, Refusal};
pub use triangle::Triangle;
