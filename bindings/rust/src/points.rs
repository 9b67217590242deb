use crate::{ConnectedLine, Line, Point};
use core::iter::FusedIterator;

/// The points of a line, connected or not, from its start to its end. Skipping points, by `nth` or `skip`, costs no more than the next one.
///
/// ```
/// use beamacorn::{Line, Point};
///
/// let mut points = Line::new(Point::new(-131_072, 0), Point::new(131_071, 2)).points()?;
/// assert_eq!(points.nth(131_072), Some(Point::new(0, 1)));
/// assert_eq!(points.len(), 131_071);
/// assert_eq!(points.nth(131_071), None);
/// # Ok::<(), beamacorn::Refusal>(())
/// ```
#[derive(Clone, Debug)]
pub struct Points {
    walked: Walked,
    step: u32,
    length: u32,
}

#[derive(Clone, Debug)]
pub(crate) enum Walked {
    Line(Line),
    Connected(ConnectedLine),
}

impl Points {
    /// The points of a line that is accepted, by how many they are.
    pub(crate) fn new(walked: Walked, length: u32) -> Self {
        Points { walked, step: 0, length }
    }
}

impl Iterator for Points {
    type Item = Point;

    fn next(&mut self) -> Option<Point> {
        let point = match &self.walked {
            Walked::Line(line) => line.point(self.step),
            Walked::Connected(line) => line.point(self.step),
        };
        // The step past the last is the one that is refused.
        let point = point.ok()?;
        self.step += 1;
        Some(point)
    }

    fn nth(&mut self, n: usize) -> Option<Point> {
        let skipped = u32::try_from(n).unwrap_or(u32::MAX);
        self.step = self.step.saturating_add(skipped).min(self.length);
        self.next()
    }

    fn size_hint(&self) -> (usize, Option<usize>) {
        let left = (self.length - self.step) as usize;
        (left, Some(left))
    }
}

impl ExactSizeIterator for Points {}
impl FusedIterator for Points {}
