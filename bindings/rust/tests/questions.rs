//! The questions through the crate's own types: the known small answers, each refusal, and the ends of the range.

use beamacorn::{Circle, ConnectedLine, ContainsPoint, FilledPoints, Line, Point, Rectangle, Refusal, Triangle};
use std::collections::HashSet;

const FAR: Point = Point::new(131_072, 0);

fn triangle(vertices: [(i32, i32); 3]) -> Triangle {
    let [a, b, c] = vertices.map(|(x, y)| Point::new(x, y));
    Triangle::new(a, b, c)
}

#[test]
fn a_lines_points_depend_on_its_start() {
    let (a, b) = (Point::new(0, 0), Point::new(2, 1));
    assert!(Line::new(a, b).points().unwrap().eq([a, Point::new(1, 0), b]));
    assert!(Line::new(b, a).points().unwrap().eq([b, Point::new(1, 1), a]));
}

#[test]
fn a_line_walks_as_many_points_as_it_claims() {
    for (end, points) in [((0, 0), 1), ((5, 2), 6), ((-7, 40), 41), ((131_071, -131_072), 131_073)] {
        let line = Line::new(Point::new(0, 0), Point::new(end.0, end.1));
        let walk = line.points().unwrap();
        assert_eq!(line.length(), Ok(points));
        assert_eq!(walk.len(), points as usize);
        assert_eq!(walk.clone().count(), points as usize);
        assert_eq!(walk.last(), Some(line.end));
        assert_eq!(line.point(points), Err(Refusal::PAST_LAST_STEP));
    }
}

#[test]
fn a_line_has_its_points_and_no_other() {
    let line = Line::new(Point::new(0, 0), Point::new(5, 2));
    let points: Vec<Point> = line.points().unwrap().collect();
    for y in -1..4 {
        for x in -1..7 {
            let pixel = Point::new(x, y);
            assert_eq!(line.has_point(pixel), Ok(points.contains(&pixel)));
        }
    }
    assert_eq!(line.has_point(Point::new(i32::MIN, i32::MAX)), Ok(false));
}

#[test]
fn a_walk_has_no_more_points_after_its_end() {
    let mut walk = Line::new(Point::new(1, 1), Point::new(2, 1)).points().unwrap();
    assert_eq!(walk.by_ref().count(), 2);
    assert_eq!((walk.next(), walk.len()), (None, 0));
}

#[test]
fn skipping_leads_to_the_points_of_a_walk() {
    fn check(walk: impl ExactSizeIterator<Item = Point> + Clone) {
        let points: Vec<Point> = walk.clone().collect();
        for n in 0..points.len() + 3 {
            let mut skipping = walk.clone();
            assert_eq!(skipping.nth(n), points.get(n).copied());
            assert_eq!(skipping.len(), points.len().saturating_sub(n + 1));
            assert_eq!(skipping.nth(1), points.get(n + 2).copied());
        }
        let mut skipping = walk;
        assert_eq!((skipping.nth(usize::MAX), skipping.next()), (None, None));
    }
    for end in [(0, 0), (5, 2), (-7, 40), (-9, -9)] {
        check(Line::new(Point::zero(), end.into()).points().unwrap());
        check(ConnectedLine::new(Point::zero(), end.into()).points().unwrap());
    }
}

/// The connected lines from (0, 0) to every place around it.
fn connected_lines() -> impl Iterator<Item = ConnectedLine> {
    let ends = (-6..=6).flat_map(|y| (-6..=6).map(move |x| Point::new(x, y)));
    ends.map(|end| ConnectedLine::new(Point::new(0, 0), end))
}

#[test]
fn a_connected_line_goes_on_by_one_on_exactly_one_axis() {
    for connected in connected_lines() {
        let (start, end) = (connected.start, connected.end);
        let points: Vec<Point> = connected.points().unwrap().collect();
        assert_eq!(connected.length(), Ok(end.x.abs_diff(start.x) + end.y.abs_diff(start.y) + 1));
        assert_eq!((points.first(), points.last()), (Some(&start), Some(&end)));
        assert!(points.windows(2).all(|two| two[0].x.abs_diff(two[1].x) + two[0].y.abs_diff(two[1].y) == 1));
        assert_eq!(connected.point(points.len() as u32), Err(Refusal::PAST_LAST_STEP));
    }
}

#[test]
fn a_connected_lines_points_are_the_lines_and_extra_ones_on_the_right() {
    for connected in connected_lines() {
        let line = Line::new(connected.start, connected.end);
        let is_normal = |p: &Point| line.has_point(*p).unwrap();
        let (normal, extra): (Vec<Point>, Vec<Point>) = connected.points().unwrap().partition(is_normal);
        assert!(line.points().unwrap().eq(normal));
        // From (0, 0), rows being counted down: twice the area of start, end and point is above 0 on the right.
        assert!(extra.iter().all(|p| line.end.x * p.y - line.end.y * p.x > 0));
    }
}

#[test]
fn a_connected_line_has_its_points_and_no_other() {
    for connected in connected_lines() {
        let points: HashSet<Point> = connected.points().unwrap().collect();
        let around = (-8..9).flat_map(|y| (-8..9).map(move |x| Point::new(x, y)));
        assert!(around.into_iter().all(|pixel| connected.has_point(pixel) == Ok(points.contains(&pixel))));
    }
    assert_eq!(ConnectedLine::default().has_point(Point::new(i32::MIN, i32::MAX)), Ok(false));
}

#[test]
fn a_wedge_of_load_contains_its_minutes() {
    let wedge = triangle([(0, 0), (86_400, 0), (0, 40_000)]);
    assert_eq!(wedge.contains(Point::new(20_000, 10_000)), Ok(true));
    assert_eq!(wedge.contains(Point::new(86_399, 2)), Ok(false));
    assert_eq!(wedge.contains(Point::new(i32::MIN, i32::MIN)), Ok(false));
}

#[test]
fn a_triangle_contains_its_rows_spans_and_nothing_else() {
    for vertices in [[(0, 0), (4, 2), (2, 1)], [(0, 0), (-2, 2), (2, 0)], [(5, -3), (-4, 1), (2, 6)], [(3, 3), (3, 3), (3, 3)]] {
        let triangle = triangle(vertices);
        let rows = triangle.rows().unwrap();
        for y in -5..9 {
            let span = triangle.row_span(y).unwrap();
            assert_eq!(span.is_empty(), !rows.contains(&y));
            for x in -7..9 {
                assert_eq!(triangle.contains(Point::new(x, y)), Ok(span.contains(&x)));
            }
        }
    }
}

#[test]
fn a_circle_contains_its_rows_spans_and_nothing_else() {
    for diameter in 0..12 {
        let circle = Circle::new(Point::new(-3, 2), diameter);
        for y in 0..16 {
            let span = circle.row_span(y).unwrap();
            for x in -6..12 {
                assert_eq!(circle.contains(Point::new(x, y)), Ok(span.contains(&x)));
            }
        }
    }
    assert_eq!([0, 1, 2, 3].map(|y| Circle::new(Point::new(0, 0), 4).row_span(y)), [Ok(1..3), Ok(0..4), Ok(0..4), Ok(1..3)]);
}

#[test]
fn every_figure_out_of_bounds_is_refused_and_never_answered_no() {
    let here = Point::new(0, 0);
    let refused = Refusal::OUT_OF_BOUNDS;
    for line in [Line::new(FAR, here), Line::new(here, FAR)] {
        assert_eq!(line.length(), Err(refused));
        assert_eq!(line.point(0), Err(refused));
        assert_eq!(line.has_point(here), Err(refused));
        assert_eq!(line.points().err(), Some(refused));
        let connected = ConnectedLine::new(line.start, line.end);
        assert_eq!(connected.length(), Err(refused));
        assert_eq!(connected.point(u32::MAX), Err(refused));
        assert_eq!(connected.has_point(here), Err(refused));
        assert_eq!(connected.points().err(), Some(refused));
    }
    for vertices in [[FAR, here, here], [here, FAR, here], [here, here, FAR]] {
        let triangle = Triangle { vertices };
        assert_eq!(triangle.contains(here), Err(refused));
        assert_eq!(triangle.rows(), Err(refused));
        assert_eq!(triangle.row_span(0), Err(refused));
    }
    assert_eq!(Circle::new(FAR, 1).contains(here), Err(refused));
    assert_eq!(Circle::new(FAR, u32::MAX).row_span(0), Err(refused));
}

#[test]
fn a_circle_whose_box_ends_too_far_is_refused() {
    for (top_left, diameter) in [(Point::new(131_071, 0), 2), (Point::new(0, 131_071), 2), (Point::new(0, 0), u32::MAX)] {
        let circle = Circle::new(top_left, diameter);
        assert_eq!(circle.contains(top_left), Err(Refusal::CIRCLE_TOO_FAR));
        assert_eq!(circle.row_span(0), Err(Refusal::CIRCLE_TOO_FAR));
    }
    assert_eq!(Circle::new(Point::new(131_071, 0), 1).contains(Point::new(131_071, 0)), Ok(true));
}

#[test]
fn the_ends_of_the_range_are_accepted() {
    let whole = triangle([(-131_072, -131_072), (131_071, -131_072), (-131_072, 131_071)]);
    assert_eq!(whole.rows(), Ok(-131_072..131_072));
    assert_eq!(whole.row_span(-131_072), Ok(-131_072..131_072));
    assert_eq!(whole.contains(Point::new(-131_072, 131_071)), Ok(true));
    let [low, high] = [-131_072, 131_071].map(|end| Point::new(end, end));
    let longest = ConnectedLine::new(low, high);
    assert_eq!(longest.length(), Ok(524_287));
    assert_eq!([524_285, 524_286].map(|index| longest.point(index)), [Ok(Point::new(131_070, 131_071)), Ok(high)]);
}

#[test]
fn every_refusal_has_its_number_and_says_why() {
    let table = [
        (Refusal::BAD_DEPTH, "the depth is not 1, 2, 4, 8, 16, 24 or 32"),
        (Refusal::TOO_LARGE, "the frame's width or height is above 2048"),
        (Refusal::SHORT_BUFFER, "the buffer is too short"),
        (Refusal::BAD_COLOUR, "the colour does not fit the depth"),
        (Refusal::OUT_OF_BOUNDS, "a coordinate is outside -131072 to 131071"),
        (Refusal::CIRCLE_TOO_FAR, "the circle's box ends past 131072"),
        (Refusal::PAST_LAST_STEP, "the step is past the line's last"),
        (Refusal::OUTSIDE_FRAME, "the pixel is outside the frame"),
        (Refusal::SHORT_OUTPUT, "the output is too short"),
        (Refusal::UNFIT_FRAME, "the frame's depth or size is not taken"),
        (Refusal::BAD_HEADER, "the file's header is not taken"),
        (Refusal::SHORT_FILE, "the file has too few pixels"),
        (Refusal::OTHER_SIZE, "the file's picture has another size"),
        (Refusal::BAD_DISTANCE, "the rows are too close or too far apart"),
    ];
    for (number, (refusal, why)) in (1..).zip(table) {
        assert_eq!((refusal.number(), refusal.to_string()), (number, format!("refused with {number}: {why}")));
        assert_eq!(Refusal::try_from(number), Ok(refusal));
    }
    for number in [0, 15, u32::MAX] {
        assert_eq!(Refusal::try_from(number).unwrap_err().to_string(), format!("{number} is the number of no refusal"));
    }
}

#[test]
fn an_unwrap_says_why() {
    let far = Triangle::new(FAR, FAR, FAR);
    assert_eq!(format!("{:?}", far.contains(FAR)), "Err(refused with 5: a coordinate is outside -131072 to 131071)");
}

#[test]
fn the_points_of_a_figure_are_those_that_it_contains() {
    fn check(figure: &impl ContainsPoint, points: FilledPoints) {
        let points: Vec<Point> = points.collect();
        let around = (-9..12).flat_map(|y| (-9..12).map(move |x| Point::new(x, y)));
        let contained: Vec<Point> = around.filter(|&pixel| figure.contains(pixel).unwrap()).collect();
        assert_eq!(points, contained);
    }
    for vertices in [[(0, 0), (4, 2), (2, 1)], [(0, 0), (-2, 2), (2, 0)], [(5, -3), (-4, 1), (2, 6)], [(3, 3), (3, 3), (3, 3)]] {
        let triangle = triangle(vertices);
        check(&triangle, triangle.points().unwrap());
    }
    for diameter in 0..12 {
        let circle = Circle::new(Point::new(-3, -2), diameter);
        check(&circle, circle.points().unwrap());
    }
}

#[test]
fn a_figure_knows_how_many_pixels_are_left() {
    fn check(mut points: FilledPoints) {
        let all: Vec<Point> = points.clone().collect();
        for left in (0..all.len()).rev() {
            assert!(points.next().is_some());
            assert_eq!(points.size_hint(), (left, Some(left)));
            assert_eq!(points.clone().count(), left);
        }
        assert_eq!((points.next(), points.size_hint()), (None, (0, Some(0))));
    }
    for vertices in [[(0, 0), (4, 2), (2, 1)], [(5, -3), (-4, 1), (2, 6)], [(3, 3), (3, 3), (3, 3)]] {
        check(triangle(vertices).points().unwrap());
    }
    for diameter in 0..12 {
        check(Circle::new(Point::new(-3, -2), diameter).points().unwrap());
    }
    let largest = triangle([(-131_072, -131_072), (131_071, -131_072), (-131_072, 131_071)]);
    assert_eq!(largest.points().unwrap().size_hint().1, Some(262_144 * 262_145 / 2));
}

#[test]
fn sums_and_multiples_of_places_stop_at_the_ends() {
    let [low, high] = [Point::new(i32::MIN, i32::MIN), Point::new(i32::MAX, i32::MAX)];
    let mut place = high;
    place += high;
    assert_eq!((place, high * 2, low * -1, -low, low - high), (high, high, high, high, low));
    place -= Point::new(1, 0);
    assert_eq!(place, Point::new(i32::MAX - 1, i32::MAX));
    assert_eq!((Point::new(3, -4) * 0, -Point::zero()), (Point::zero(), Point::default()));
    assert_eq!(Line::with_delta(high, Point::new(1, -1)).end, Point::new(i32::MAX, i32::MAX - 1));
    assert_eq!(Circle::with_center(low, u32::MAX).top_left, low);
    assert_eq!(Circle::new(high, u32::MAX).center(), high);
}

#[test]
fn the_middle_of_a_line_is_as_far_from_both_ends_or_nearer_to_the_start() {
    for end in (-9..10).flat_map(|y| (-9..10).map(move |x| Point::new(x, y))) {
        let start = Point::new(3, -2);
        let middle = Line::new(start, end).midpoint();
        let [before, behind] = [middle - start, end - middle];
        for (before, behind) in [(before.x, behind.x), (before.y, behind.y)] {
            assert!([0, 1].contains(&(behind.abs() - before.abs())) && before.signum() * behind.signum() >= 0);
        }
    }
    let widest = Line::new(Point::new(i32::MIN, i32::MAX), Point::new(i32::MAX, i32::MIN));
    assert_eq!(widest.midpoint(), Point::new(-1, 0));
}

#[test]
fn a_circle_around_a_place_lies_as_far_to_both_sides_or_one_further_behind_it() {
    for diameter in 1..40 {
        let circle = Circle::with_center(Point::new(-3, 8), diameter);
        let bounding_box = circle.bounding_box().unwrap();
        for (middle, range) in [(-3, bounding_box.columns()), (8, bounding_box.rows())] {
            assert_eq!(range.end - 1 - middle - (middle - range.start), 1 - diameter as i32 % 2);
        }
        assert_eq!((circle.center(), circle.contains(circle.center())), (Point::new(-3, 8), Ok(true)));
    }
}

#[test]
fn a_box_has_the_figures_first_and_last_pixels() {
    fn check(bounding_box: Rectangle, points: impl Iterator<Item = Point> + Clone) {
        let (columns, rows) = (points.clone().map(|p| p.x), points.map(|p| p.y));
        assert_eq!(bounding_box.columns(), columns.clone().min().unwrap()..columns.max().unwrap() + 1);
        assert_eq!(bounding_box.rows(), rows.clone().min().unwrap()..rows.max().unwrap() + 1);
    }
    let [a, b, c] = [(5, -3), (-4, 1), (2, 6)].map(Point::from);
    check(Line::new(a, b).bounding_box().unwrap(), Line::new(a, b).points().unwrap());
    check(ConnectedLine::new(a, b).bounding_box().unwrap(), ConnectedLine::new(a, b).points().unwrap());
    check(Triangle::new(a, b, c).bounding_box().unwrap(), Triangle::new(a, b, c).points().unwrap());
    check(Circle::new(a, 9).bounding_box().unwrap(), Circle::new(a, 9).points().unwrap());
    let dot = Circle::new(a, 0).bounding_box().unwrap();
    assert_eq!((dot.top_left, dot.size.width, dot.size.height), (a, 0, 0));
}

#[test]
fn a_figure_out_of_bounds_has_no_box_and_no_points() {
    let here = Point::new(0, 0);
    let refused = Some(Refusal::OUT_OF_BOUNDS);
    assert_eq!(Line::new(here, FAR).bounding_box().err(), refused);
    assert_eq!(ConnectedLine::new(here, FAR).bounding_box().err(), refused);
    assert_eq!(Triangle::new(here, here, FAR).bounding_box().err(), refused);
    assert_eq!(Triangle::new(here, here, FAR).points().err(), refused);
    assert_eq!(Circle::new(FAR, 0).bounding_box().err(), refused);
    assert_eq!(Circle::new(FAR, 0).rows(), Err(Refusal::OUT_OF_BOUNDS));
    assert_eq!(Circle::new(here, u32::MAX).points().err(), Some(Refusal::CIRCLE_TOO_FAR));
}

#[test]
fn a_moved_figure_contains_the_moved_pixels() {
    let by = Point::new(-30, 1_000);
    let [a, b, c] = [(5, -3), (-4, 1), (2, 6)].map(Point::from);
    assert!(Line::new(a, b).translate(by).points().unwrap().eq(Line::new(a, b).points().unwrap().map(|p| p + by)));
    assert!(ConnectedLine::new(a, b).translate(by).points().unwrap().eq(ConnectedLine::new(a, b).points().unwrap().map(|p| p + by)));
    assert!(Triangle::new(a, b, c).translate(by).points().unwrap().eq(Triangle::new(a, b, c).points().unwrap().map(|p| p + by)));
    assert!(Circle::new(a, 7).translate(by).points().unwrap().eq(Circle::new(a, 7).points().unwrap().map(|p| p + by)));
    assert_eq!(Circle::new(a, 7).translate(Point::new(i32::MAX, 0)).rows(), Err(Refusal::OUT_OF_BOUNDS));
    assert_eq!(Triangle::new(a, b, c).translate(Point::new(i32::MIN, i32::MIN)).rows(), Err(Refusal::OUT_OF_BOUNDS));
}
