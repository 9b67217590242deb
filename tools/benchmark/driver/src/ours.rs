//! Our library, as its C header declares it. Its functions are linked and so never inlined.

#[repr(C)]
pub struct Verdict {
    pub number: u32,
    pub yes: bool,
}

#[repr(C)]
pub struct Span {
    pub number: u32,
    pub start: i32,
    pub end: i32,
}

#[repr(C)]
pub struct Drawn {
    pub number: u32,
    pub count: u32,
}

#[repr(C)]
pub struct Placed {
    pub number: u32,
    pub inside: bool,
}

#[repr(C)]
pub struct Lights {
    pub number: u32,
    pub count: u32,
}

#[repr(C)]
pub struct Size {
    pub number: u32,
    pub bytes: u32,
}

#[rustfmt::skip]
extern "C" {
    fn beamacorn_triangle_contains(x1: i32, y1: i32, x2: i32, y2: i32, x3: i32, y3: i32, x: i32, y: i32) -> Verdict;
    fn beamacorn_triangle_row_span(x1: i32, y1: i32, x2: i32, y2: i32, x3: i32, y3: i32, y: i32) -> Span;
    fn beamacorn_circle_row_span(left: i32, top: i32, diameter: u32, y: i32) -> Span;

    fn beamacorn_set_pixel(buf: *mut u8, len: usize, width: u32, height: u32, depth: u32, order: u32, distance: u32,
        x: i32, y: i32, colour: u32) -> Placed;
    fn beamacorn_lit(buf: *const u8, len: usize, width: u32, height: u32, depth: u32, order: u32, distance: u32) -> Lights;
    fn beamacorn_fill(buf: *mut u8, len: usize, width: u32, height: u32, depth: u32, order: u32, distance: u32,
        colour: u32) -> Drawn;
    fn beamacorn_draw_line(buf: *mut u8, len: usize, width: u32, height: u32, depth: u32, order: u32, distance: u32,
        x1: i32, y1: i32, x2: i32, y2: i32, colour: u32) -> Drawn;
    fn beamacorn_draw_connected_line(buf: *mut u8, len: usize, width: u32, height: u32, depth: u32, order: u32, distance: u32,
        x1: i32, y1: i32, x2: i32, y2: i32, colour: u32) -> Drawn;
    fn beamacorn_draw_triangle(buf: *mut u8, len: usize, width: u32, height: u32, depth: u32, order: u32, distance: u32,
        x1: i32, y1: i32, x2: i32, y2: i32, x3: i32, y3: i32, colour: u32) -> Drawn;
    fn beamacorn_draw_circle(buf: *mut u8, len: usize, width: u32, height: u32, depth: u32, order: u32, distance: u32,
        left: i32, top: i32, diameter: u32, colour: u32) -> Drawn;

    fn beamacorn_image_size(width: u32, height: u32, depth: u32, distance: u32) -> Size;
    fn beamacorn_write_image(buf: *const u8, len: usize, width: u32, height: u32, depth: u32, order: u32, distance: u32,
        out: *mut u8, out_len: usize) -> Size;
    fn beamacorn_read_image(buf: *mut u8, len: usize, width: u32, height: u32, depth: u32, order: u32, distance: u32,
        file: *const u8, file_len: usize) -> u32;
}

pub type Place = (i32, i32);

pub fn contains([(x1, y1), (x2, y2), (x3, y3)]: [Place; 3], (x, y): Place) -> bool {
    unsafe { beamacorn_triangle_contains(x1, y1, x2, y2, x3, y3, x, y) }.yes
}

pub fn row_span([(x1, y1), (x2, y2), (x3, y3)]: [Place; 3], y: i32) -> (i32, i32) {
    let span = unsafe { beamacorn_triangle_row_span(x1, y1, x2, y2, x3, y3, y) };
    (span.start, span.end)
}

pub fn circle_row_span((left, top): Place, diameter: u32, y: i32) -> (i32, i32) {
    let span = unsafe { beamacorn_circle_row_span(left, top, diameter, y) };
    (span.start, span.end)
}

/// How many bytes the frame's image file has.
pub fn image_size(width: u32, height: u32, depth: u32) -> usize {
    accepted(unsafe { beamacorn_image_size(width, height, depth, distance(width, depth)) })
}

/// Writes it, and says the same.
pub fn write_image(buf: &[u8], width: u32, height: u32, depth: u32, order: u32, out: &mut [u8]) -> usize {
    let distance = distance(width, depth);
    accepted(unsafe { beamacorn_write_image(buf.as_ptr(), buf.len(), width, height, depth, order, distance, out.as_mut_ptr(), out.len()) })
}

/// Reads the file into the frame.
pub fn read_image(buf: &mut [u8], width: u32, height: u32, depth: u32, order: u32, file: &[u8]) {
    let distance = distance(width, depth);
    let number =
        unsafe { beamacorn_read_image(buf.as_mut_ptr(), buf.len(), width, height, depth, order, distance, file.as_ptr(), file.len()) };
    assert_eq!(number, 0, "our library refused");
}

/// How many pixels of a one-bit frame are lit.
pub fn lit(buf: &[u8], width: u32, height: u32) -> u32 {
    let lights = unsafe { beamacorn_lit(buf.as_ptr(), buf.len(), width, height, 1, 0, distance(width, 1)) };
    assert_eq!(lights.number, 0, "our library refused");
    lights.count
}

fn accepted(size: Size) -> usize {
    assert_eq!(size.number, 0, "our library refused");
    size.bytes as usize
}

/// A frame of our own over its bytes, little end first and without a gap between its rows.
pub struct Frame {
    pub bytes: Vec<u8>,
    width: u32,
    height: u32,
    depth: u32,
    distance: u32,
}

/// Calls a function of the library on a frame; it must not refuse.
macro_rules! call {
    ($function:ident($frame:expr $(, $argument:expr)*)) => {{
        let Frame { bytes, width, height, depth, distance } = $frame;
        let drawn = unsafe { $function(bytes.as_mut_ptr(), bytes.len(), *width, *height, *depth, 0, *distance $(, $argument)*) };
        assert_eq!(drawn.number, 0, "our library refused");
    }};
}

impl Frame {
    pub fn new(width: u32, height: u32, depth: u32) -> Self {
        let bytes = vec![0; row_bytes(width, depth) * height as usize];
        Frame { bytes, width, height, depth, distance: distance(width, depth) }
    }

    pub fn set_pixel(&mut self, (x, y): Place, colour: u32) {
        call!(beamacorn_set_pixel(self, x, y, colour));
    }

    pub fn fill(&mut self, colour: u32) {
        call!(beamacorn_fill(self, colour));
    }

    pub fn draw_line(&mut self, (x1, y1): Place, (x2, y2): Place, colour: u32) {
        call!(beamacorn_draw_line(self, x1, y1, x2, y2, colour));
    }

    pub fn draw_connected_line(&mut self, (x1, y1): Place, (x2, y2): Place, colour: u32) {
        call!(beamacorn_draw_connected_line(self, x1, y1, x2, y2, colour));
    }

    pub fn draw_triangle(&mut self, [(x1, y1), (x2, y2), (x3, y3)]: [Place; 3], colour: u32) {
        call!(beamacorn_draw_triangle(self, x1, y1, x2, y2, x3, y3, colour));
    }

    pub fn draw_circle(&mut self, (left, top): Place, diameter: u32, colour: u32) {
        call!(beamacorn_draw_circle(self, left, top, diameter, colour));
    }
}

pub fn row_bytes(width: u32, depth: u32) -> usize {
    distance(width, depth) as usize
}

/// From a row to the next where there is no gap.
fn distance(width: u32, depth: u32) -> u32 {
    (width * depth).div_ceil(8)
}
