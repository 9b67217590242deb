//! Other drawing libraries, as far as the driver was built with them: libgd and cairo. Each draws by rules of its own, so that
//! the pixels are not held to be ours, only about as many.

#[cfg(libcairo)]
mod cairo;
#[cfg(libgd)]
mod gd;

use crate::{
    race::Race,
    shapes::{
        drawing, Ours, Shapes, Side, BEYOND_THE_FRAME, CROSSING, CROSSING_200_000, FAR_CIRCLE, FAR_EDGE, FAR_HALF, HALF, ON_THE_FRAME,
    },
};

const LIBGD: &str = "libgd";
const CAIRO: &str = "cairo";

/// A library with frames of one depth. It may draw into the bytes of our frame, which are zero and outlive it.
struct Peer {
    name: &'static str,
    depth: u32,
    new: fn(&mut [u8]) -> Box<dyn Side>,
}

/// What is drawn beside which of them.
struct Contest {
    name: &'static str,
    shapes: Shapes,
    beside: &'static [&'static str],
}

/// Each library by its name and, if it is at hand, its version.
pub fn versions() -> [(&'static str, Option<String>); 2] {
    [
        #[cfg(libgd)]
        (LIBGD, Some(gd::version())),
        #[cfg(not(libgd))]
        (LIBGD, None),
        #[cfg(libcairo)]
        (CAIRO, Some(cairo::version())),
        #[cfg(not(libcairo))]
        (CAIRO, None),
    ]
}

fn at_hand() -> Vec<Peer> {
    vec![
        #[cfg(libgd)]
        Peer { name: LIBGD, depth: 8, new: |_| Box::new(gd::Image::palette()) },
        #[cfg(libgd)]
        Peer { name: LIBGD, depth: 32, new: |_| Box::new(gd::Image::true_colour()) },
        #[cfg(libcairo)]
        Peer { name: CAIRO, depth: 1, new: |bytes| Box::new(cairo::Surface::over(bytes, cairo::Format::A1)) },
        #[cfg(libcairo)]
        Peer { name: CAIRO, depth: 8, new: |bytes| Box::new(cairo::Surface::over(bytes, cairo::Format::A8)) },
        #[cfg(libcairo)]
        Peer { name: CAIRO, depth: 16, new: |bytes| Box::new(cairo::Surface::over(bytes, cairo::Format::Rgb16)) },
        #[cfg(libcairo)]
        Peer { name: CAIRO, depth: 32, new: |bytes| Box::new(cairo::Surface::over(bytes, cairo::Format::Argb32)) },
    ]
}

/// Each is made when its turn comes, so that no more than its own frames take room.
pub fn races<'a>() -> impl Iterator<Item = Race<'a>> {
    contests().into_iter().flat_map(|contest| {
        let beside = at_hand().into_iter().filter(move |peer| contest.beside.contains(&peer.name));
        beside.map(move |peer| race(&contest, &peer))
    })
}

fn contests() -> Vec<Contest> {
    let every = &[LIBGD, CAIRO];
    // libgd takes minutes for a polygon or an ellipse that is far larger than the frame.
    let far = &[CAIRO];
    let contest = |name, shapes, beside| Contest { name, shapes, beside };
    vec![
        // cairo has no call that sets one pixel.
        contest("one `set_pixel`", Shapes::pixels(), &[LIBGD]),
        contest("a line of 40 points", Shapes::small_lines(), every),
        contest("a triangle of 30 by 34", Shapes::small_triangles(), every),
        contest("a circle of d = 31", Shapes::small_circles(), every),
        contest("a line of 2,048 points across the frame", Shapes::line(CROSSING), every),
        contest("a level line of 2,048 pixels", Shapes::level_lines(ON_THE_FRAME), every),
        contest("an upright line of 2,048 pixels", Shapes::upright_lines(ON_THE_FRAME), every),
        contest("a triangle over half of the frame", Shapes::triangle(HALF), every),
        contest("a circle of d = 2,000", Shapes::circle(((24, 24), 2_000)), every),
        contest("filling the frame", Shapes::WholeFrame, every),
        contest("a line of 200,000 points that crosses the frame", Shapes::line(CROSSING_200_000), every),
        contest("a level line of 200,000 points that crosses the frame", Shapes::level_lines(BEYOND_THE_FRAME), every),
        contest("an upright line of 200,000 points that crosses the frame", Shapes::upright_lines(BEYOND_THE_FRAME), every),
        contest("a triangle of 200,000 rows over half of the frame", Shapes::triangle(FAR_HALF), far),
        contest("a circle of d = 200,000 over the frame's corner", Shapes::circle(FAR_CIRCLE), far),
        contest("a circle of d = 150,000 with its edge over the frame", Shapes::circle(FAR_EDGE), far),
    ]
}

fn race<'a>(contest: &Contest, peer: &Peer) -> Race<'a> {
    let name = format!("{}, depth {}", contest.name, peer.depth);
    let mut ours = Ours::having_drawn(peer.depth, &contest.shapes);
    let painted = ours.painted();
    ours.frame.bytes.fill(0);
    let mut other = (peer.new)(&mut ours.frame.bytes);
    other.draw(&contest.shapes);
    about_as_many(&format!("{name}, {}", peer.name), painted, other.painted());
    let sides: [Box<dyn Side>; 2] = [Box::new(ours), other];
    let [ours, other] = sides.map(|side| drawing(side, contest.shapes.clone()));
    Race { name, against: peer.name, goal: Some(1.0), ours, other }
}

/// A stroke as wide as a pixel has up to the root of two as many pixels as our line, and ends may or may not count.
fn about_as_many(name: &str, ours: usize, theirs: usize) {
    assert!(theirs * 3 >= ours * 2 && theirs * 2 <= ours * 3, "{name}: {theirs} pixels beside our {ours}");
}
