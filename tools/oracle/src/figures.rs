//! How the questions on lines, connected lines, triangles and circles are put to the Rust.

use crate::{differences::Difference, question::Question};
use embedded_graphics::{
    geometry::{Dimensions, Point},
    primitives::{Circle, ContainsPoint, Line, PointsIter, Triangle},
};
use std::{collections::HashMap, ops::Range};

/// Demand 2 asks for agreement with the Rust if every coordinate lies here, circle boxes too.
const AGREED: Range<i64> = -8_192..8_192;

pub struct Figures {
    amended: bool,
    amendments: [u64; Difference::ALL.len()],
    rows: Option<(Circle, HashMap<i32, Range<i32>>)>,
}

impl Figures {
    pub fn new(amended: bool) -> Self {
        Figures { amended, amendments: [0; Difference::ALL.len()], rows: None }
    }

    /// How many answers each named difference has changed.
    pub fn amendments(&self) -> impl Iterator<Item = (&'static str, u64)> {
        Difference::ALL.map(Difference::name).into_iter().zip(self.amendments)
    }

    pub fn answer(&mut self, question: &Question) -> Option<String> {
        let numbers = question.numbers.as_slice();
        match question.word {
            "length" | "point" | "online" => self.on_line(question.word, numbers, |line| line.points()),
            "tracelength" | "tracepoint" | "ontrace" => self.on_line(question.word, numbers, |line| line.connected_points()),
            "inside" | "span" | "rows" => self.on_triangle(question.word, numbers),
            "disc" | "discspan" => self.on_circle(question.word, numbers),
            _ => None,
        }
    }

    /// The questions on a line or a connected line, of which the crate has the points only: they are counted and looked through.
    fn on_line<P: Iterator<Item = Point>>(&self, word: &str, numbers: &[i64], points: impl Fn(Line) -> P) -> Option<String> {
        Some(match (word, numbers) {
            ("length" | "tracelength", line) => format!("0\t{}", points(self.line(line)?).count()),
            ("point" | "tracepoint", [line @ .., k]) => match points(self.line(line)?).nth(u32::try_from(*k).ok()? as usize) {
                Some(point) => format!("0\t{}\t{}", point.x, point.y),
                // The iterator's end stands for refusal 7.
                None => "7\t0\t0".into(),
            },
            ("online" | "ontrace", [line @ .., x, y]) => {
                let p = self.point(*x, *y)?;
                yes_or_no(points(self.line(line)?).any(|point| point == p))
            }
            _ => return None,
        })
    }

    fn on_triangle(&mut self, word: &str, numbers: &[i64]) -> Option<String> {
        Some(match (word, numbers) {
            ("inside", [triangle @ .., x, y]) => {
                let (triangle, p) = (self.triangle(triangle)?, self.point(*x, *y)?);
                self.contains(&triangle, p)
            }
            ("span", [triangle @ .., y]) => from_to(self.triangle(triangle)?.row_span(self.coordinate(*y)?)),
            // The rows of the bounding box.
            ("rows", triangle) => {
                let bounding_box = self.triangle(triangle)?.bounding_box();
                format!("0\t{}\t{}", bounding_box.top_left.y, bounding_box.size.height)
            }
            _ => return None,
        })
    }

    fn on_circle(&mut self, word: &str, numbers: &[i64]) -> Option<String> {
        Some(match (word, numbers) {
            ("disc", [circle @ .., x, y]) => yes_or_no(self.circle(circle)?.contains(self.point(*x, *y)?)),
            // A row that `Scanlines` does not give has the empty span.
            ("discspan", [circle @ .., y]) => {
                let (circle, y) = (self.circle(circle)?, self.coordinate(*y)?);
                from_to(self.rows_of(circle).get(&y).cloned().unwrap_or(0..0))
            }
            _ => return None,
        })
    }

    /// `contains`; amended, with what 01 says where it names a difference, provided that the Rust says there what 01 says of it.
    fn contains(&mut self, triangle: &Triangle, p: Point) -> String {
        let by_rust = triangle.contains(p);
        let Some(difference) = Difference::named(triangle, p).filter(|_| self.amended) else {
            return yes_or_no(by_rust);
        };
        if by_rust != difference.by_rust() {
            return "not the difference that 01 names".into();
        }
        let by_01 = difference.by_01(triangle, p);
        self.amendments[difference as usize] += u64::from(by_01 != by_rust);
        yes_or_no(by_01)
    }

    /// The rows that `Scanlines` gives, kept for further questions on the same circle: it gives them only in order.
    fn rows_of(&mut self, circle: Circle) -> &HashMap<i32, Range<i32>> {
        if self.rows.as_ref().is_none_or(|(known, _)| *known != circle) {
            self.rows = Some((circle, circle.row_spans().collect()));
        }
        &self.rows.as_ref().unwrap().1
    }

    pub fn line(&self, numbers: &[i64]) -> Option<Line> {
        let &[x1, y1, x2, y2] = numbers else { return None };
        Some(Line::new(self.point(x1, y1)?, self.point(x2, y2)?))
    }

    pub fn triangle(&self, numbers: &[i64]) -> Option<Triangle> {
        let &[x1, y1, x2, y2, x3, y3] = numbers else { return None };
        Some(Triangle::new(self.point(x1, y1)?, self.point(x2, y2)?, self.point(x3, y3)?))
    }

    pub fn circle(&self, numbers: &[i64]) -> Option<Circle> {
        let &[left, top, diameter] = numbers else { return None };
        let top_left = self.point(left, top)?;
        if self.amended && diameter > 0 {
            self.point(left + diameter - 1, top + diameter - 1)?;
        }
        Some(Circle::new(top_left, u32::try_from(diameter).ok()?))
    }

    fn point(&self, x: i64, y: i64) -> Option<Point> {
        Some(Point::new(self.coordinate(x)?, self.coordinate(y)?))
    }

    fn coordinate(&self, c: i64) -> Option<i32> {
        if self.amended && !AGREED.contains(&c) {
            return None;
        }
        i32::try_from(c).ok()
    }
}

/// The edges p1 to p2, p1 to p3 and p2 to p3 of the vertices sorted by y, then x.
pub fn sorted_edges(triangle: &Triangle) -> [Line; 3] {
    let [p1, p2, p3] = triangle.sorted_vertices();
    [Line::new(p1, p2), Line::new(p1, p3), Line::new(p2, p3)]
}

fn yes_or_no(yes: bool) -> String {
    format!("0\t{}", u8::from(yes))
}

fn from_to(span: Range<i32>) -> String {
    format!("0\t{}\t{}", span.start, span.end)
}
