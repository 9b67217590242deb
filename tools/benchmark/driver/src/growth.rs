//! How the cost of a figure grows: with what it paints, and with what of it lies off the frame.

use crate::{
    expected::{bytes_in, colour, hold, new_frame, parts_of, rows},
    race::{Race, Work},
    shapes::{
        drawing, Ours, Shapes, Side, BEYOND_THE_FRAME, CROSSING, CROSSING_200_000, CROSSING_20_000, FAR_CIRCLE, FAR_CIRCLE_20_000,
        FAR_EDGE, FAR_EDGE_15_000, FAR_HALF, HALF, ON_THE_FRAME,
    },
};
use embedded_graphics::{geometry::Point, primitives::Circle};
use std::hint::black_box;

/// The depth of the frames that are drawn on.
const DEPTH: u32 = 8;

/// A figure that lies on the frame as a whole.
const ON: &str = "ours, the same pixels on the frame";

pub fn races<'a>() -> Vec<Race<'a>> {
    let line = "a line of 200,000 points that crosses the frame";
    let level = "a level line of 200,000 points that crosses the frame";
    let upright = "an upright line of 200,000 points that crosses the frame";
    let circle = "a circle of d = 200,000 over the frame's corner";
    vec![
        grown_triangle(),
        grown_circle(),
        far("a line of 20,000 points that crosses the frame", ON, Some(1.1), Shapes::line(CROSSING_20_000), Shapes::line(CROSSING)),
        far(line, ON, Some(1.1), Shapes::line(CROSSING_200_000), Shapes::line(CROSSING)),
        far(level, ON, Some(1.1), Shapes::level_lines(BEYOND_THE_FRAME), Shapes::level_lines(ON_THE_FRAME)),
        far(upright, ON, Some(1.1), Shapes::upright_lines(BEYOND_THE_FRAME), Shapes::upright_lines(ON_THE_FRAME)),
        // A triangle's edges are walked from end to end, by the rule of its rows.
        far("a triangle of 200,000 rows over half of the frame", ON, None, Shapes::triangle(FAR_HALF), Shapes::triangle(HALF)),
        far(circle, "our `fill`", Some(1.5), Shapes::circle(FAR_CIRCLE), Shapes::WholeFrame),
        far(circle, "ours at d = 20,000", Some(1.1), Shapes::circle(FAR_CIRCLE), Shapes::circle(FAR_CIRCLE_20_000)),
        far_edge(),
    ]
}

/// A figure that reaches far beyond the frame, beside work that paints the same pixels of it.
fn far<'a>(name: &str, against: &'static str, goal: Option<f64>, far: Shapes, near: Shapes) -> Race<'a> {
    let [by_far, by_near] = [&far, &near].map(|shapes| Ours::having_drawn(DEPTH, shapes).frame.bytes);
    assert!(by_far == by_near, "{name}: other pixels of the frame");
    Race { name: format!("{name}, depth {DEPTH}"), against, goal, ours: ours(far), other: ours(near) }
}

/// The smaller circle's edge is less straight, so that the two have about as many pixels and not the same.
fn far_edge<'a>() -> Race<'a> {
    let drawn = |disc| {
        let shapes = Shapes::circle(disc);
        let mut ours = Ours::having_drawn(DEPTH, &shapes);
        Work::new(ours.painted(), move || ours.draw(black_box(&shapes)))
    };
    Race {
        name: format!("a circle of d = 150,000 with its edge over the frame, depth {DEPTH}, cost a painted byte"),
        against: "ours at d = 15,000",
        goal: Some(1.1),
        ours: drawn(FAR_EDGE),
        other: drawn(FAR_EDGE_15_000),
    }
}

fn ours<'a>(shapes: Shapes) -> Work<'a> {
    drawing(Box::new(Ours::new(DEPTH)), shapes)
}

fn grown_triangle<'a>() -> Race<'a> {
    let drawn = |n: i32| {
        let vertices = [(0, 0), (n - 1, n / 4), (n / 3, n - 1)];
        let mut frame = new_frame(DEPTH);
        let parts = parts_of(rows(vertices), DEPTH);
        frame.draw_triangle(vertices, colour(DEPTH));
        hold(&frame, &parts, DEPTH);
        Work::new(bytes_in(&parts), move || frame.draw_triangle(black_box(vertices), colour(DEPTH)))
    };
    grown("a triangle", drawn(500), drawn(2_000))
}

fn grown_circle<'a>() -> Race<'a> {
    let drawn = |n: u32| {
        let mut frame = new_frame(DEPTH);
        let parts = parts_of(Circle::new(Point::new(0, 0), n).row_spans().collect(), DEPTH);
        frame.draw_circle((0, 0), n, colour(DEPTH));
        hold(&frame, &parts, DEPTH);
        Work::new(bytes_in(&parts), move || frame.draw_circle((0, 0), black_box(n), colour(DEPTH)))
    };
    grown("a circle", drawn(500), drawn(2_000))
}

fn grown<'a>(figure: &str, small: Work<'a>, large: Work<'a>) -> Race<'a> {
    Race {
        name: format!("{figure} grown from n to 4n, cost a painted byte"),
        against: "ours at n",
        goal: Some(1.2),
        ours: large,
        other: small,
    }
}
