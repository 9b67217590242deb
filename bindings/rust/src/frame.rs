use crate::{Circle, ConnectedLine, Line, Point, Refusal, Triangle, library};

/// Which byte of a colour comes first, where a pixel takes several. At depths of 8 and below it has no effect.
#[derive(Clone, Copy, Debug, Eq, Hash, PartialEq)]
pub enum ByteOrder {
    /// The lowest byte first.
    LittleEndian = 0,
    /// The highest byte first.
    BigEndian = 1,
}

/// The description of a packed frame: its width and height in pixels, its depth in bits, its byte order, and its row distance, which is the number of bytes
/// from the begin of a row to that of the next. The pixels are in bytes that the caller lends to each call.
///
/// Any numbers make a description, and every call judges it. A frame that is accepted has a depth of 1, 2, 4, 8, 16, 24 or 32, at most 2,048 by 2,048
/// pixels, and a distance of at least what a row takes and at most 16,384. Its colours are the numbers below 2 to the power of the depth.
///
/// ```
/// use beamacorn::{ByteOrder, Frame, Line, Point};
///
/// let pane = Frame::packed(8, 2, 1, ByteOrder::LittleEndian);
/// let mut buf = [0; 2];
/// assert_eq!(pane.size(), Ok(buf.len()));
/// assert_eq!(pane.draw_line(&mut buf, Line::new(Point::new(0, 0), Point::new(2, 1)), 1), Ok(3));
/// assert_eq!(pane.set_pixel(&mut buf, Point::new(5, 0), 1), Ok(true));
/// assert_eq!(buf, [0xC4, 0x20]);
/// assert_eq!(pane.lit(&buf), Ok(4));
/// ```
///
/// At depths below 8 the first pixel is in a byte's high bits. The bits that pad a row, the bytes between two rows, behind the last one too, and those past
/// the frame never change. A refused call changes nothing at all, and of several reasons it gives the first, in the order that the function names:
///
/// ```
/// # use beamacorn::{ByteOrder, Frame, Refusal};
/// let pane = Frame::packed(10, 2, 1, ByteOrder::LittleEndian);
/// let mut buf = [0xFF; 5];
/// assert_eq!(pane.fill(&mut buf, 2), Err(Refusal::BAD_COLOUR));
/// assert_eq!(pane.fill(&mut buf[..3], 2), Err(Refusal::SHORT_BUFFER));
/// assert_eq!(buf, [0xFF; 5]);
/// assert_eq!(pane.fill(&mut buf, 0), Ok(20));
/// assert_eq!(buf, [0x00, 0x3F, 0x00, 0x3F, 0xFF]);
/// ```
#[derive(Clone, Copy, Debug, Eq, Hash, PartialEq)]
pub struct Frame {
    width: u32,
    height: u32,
    depth: u32,
    order: ByteOrder,
    distance: u32,
}

impl Frame {
    /// The description of a frame whose rows have no gap between them: the distance is what a row takes, `width * depth` bits in whole bytes. Where 32 bits
    /// do not hold that it is 0, and the frame is refused for its depth or its width.
    ///
    /// It can be a constant, and the number of its bytes too:
    ///
    /// ```
    /// use beamacorn::{ByteOrder, Frame};
    ///
    /// const PANE: Frame = Frame::packed(320, 200, 1, ByteOrder::LittleEndian);
    /// const BYTES: usize = PANE.distance() as usize * PANE.height() as usize;
    /// assert_eq!(PANE.fill(&mut [0; BYTES], 1), Ok(64_000));
    /// ```
    pub const fn packed(width: u32, height: u32, depth: u32, order: ByteOrder) -> Self {
        // 64 bits hold the product of any two numbers of 32.
        let bytes = (width as u64 * depth as u64).div_ceil(8);
        let distance = if bytes <= u32::MAX as u64 { bytes as u32 } else { 0 };
        Frame { width, height, depth, order, distance }
    }

    /// The same description with another row distance, for a panel that fetches its rows at a fixed one.
    ///
    /// ```
    /// use beamacorn::{ByteOrder, Frame, Point, Refusal};
    ///
    /// let panel = Frame::packed(10, 2, 1, ByteOrder::LittleEndian).with_distance(4);
    /// let mut buf = [0xFF; 8];
    /// assert_eq!(panel.size(), Ok(8));
    /// assert_eq!(panel.fill(&mut buf, 0), Ok(20));
    /// assert_eq!(panel.set_pixel(&mut buf, Point::new(9, 1), 1), Ok(true));
    /// assert_eq!(buf, [0x00, 0x3F, 0xFF, 0xFF, 0x00, 0x7F, 0xFF, 0xFF]);
    /// assert_eq!(panel.with_distance(1).size(), Err(Refusal::BAD_DISTANCE));
    /// ```
    #[must_use]
    pub const fn with_distance(self, distance: u32) -> Self {
        Frame { distance, ..self }
    }

    /// How many pixels a row has.
    pub const fn width(&self) -> u32 {
        self.width
    }

    /// How many rows there are.
    pub const fn height(&self) -> u32 {
        self.height
    }

    /// How many bits a pixel takes.
    pub const fn depth(&self) -> u32 {
        self.depth
    }

    /// Which byte of a colour comes first.
    pub const fn order(&self) -> ByteOrder {
        self.order
    }

    /// How many bytes there are from the begin of a row to that of the next.
    pub const fn distance(&self) -> u32 {
        self.distance
    }

    /// The five numbers, in the order of the functions that the library exports.
    pub(crate) const fn numbers(self) -> [u32; 5] {
        [self.width, self.height, self.depth, self.order as u32, self.distance]
    }

    /// How many bytes a buffer for the frame must have, in either order: the distance times the height. A longer one is accepted.
    ///
    /// # Errors
    ///
    /// [`Refusal::BAD_DEPTH`], [`Refusal::TOO_LARGE`] and [`Refusal::BAD_DISTANCE`], in this order.
    pub fn size(&self) -> Result<usize, Refusal> {
        library::beamacorn_frame_size(self.width, self.height, self.depth, self.distance).answer()
    }

    /// The colour of a pixel.
    ///
    /// ```
    /// use beamacorn::{ByteOrder, Frame, Point, Refusal};
    ///
    /// let little = Frame::packed(1, 1, 24, ByteOrder::LittleEndian);
    /// assert_eq!(little.pixel(&[3, 2, 1], Point::new(0, 0)), Ok(0x010203));
    /// assert_eq!(little.pixel(&[3, 2, 1], Point::new(1, 0)), Err(Refusal::OUTSIDE_FRAME));
    /// ```
    ///
    /// # Errors
    ///
    /// Those of [`size`](Self::size), then [`Refusal::SHORT_BUFFER`], then [`Refusal::OUTSIDE_FRAME`].
    pub fn pixel(&self, buf: &[u8], point: Point) -> Result<u32, Refusal> {
        library::pixel(buf, *self, point).answer()
    }

    /// Sets a pixel to the colour, and says whether it is inside the frame. Outside that is done, and changes nothing.
    ///
    /// ```
    /// use beamacorn::{ByteOrder, Frame, Point};
    ///
    /// let pane = Frame::packed(2, 1, 16, ByteOrder::BigEndian);
    /// let mut buf = [0; 4];
    /// assert_eq!(pane.set_pixel(&mut buf, Point::new(1, 0), 0x1234), Ok(true));
    /// assert_eq!(pane.set_pixel(&mut buf, Point::new(2, 0), 0x1234), Ok(false));
    /// assert_eq!(buf, [0, 0, 0x12, 0x34]);
    /// ```
    ///
    /// # Errors
    ///
    /// Those of [`size`](Self::size), then [`Refusal::SHORT_BUFFER`], then [`Refusal::BAD_COLOUR`].
    pub fn set_pixel(&self, buf: &mut [u8], point: Point, colour: u32) -> Result<bool, Refusal> {
        library::set_pixel(buf, *self, point, colour).answer()
    }

    /// Sets every pixel of the frame to the colour, and says how many those are: the width times the height.
    ///
    /// # Errors
    ///
    /// Those of [`size`](Self::size), then [`Refusal::SHORT_BUFFER`], then [`Refusal::BAD_COLOUR`].
    pub fn fill(&self, buf: &mut [u8], colour: u32) -> Result<u32, Refusal> {
        library::fill(buf, *self, colour).answer()
    }

    /// Draws the points of the line that lie in the frame, and says how many those are: 0 if the line lies off it.
    ///
    /// # Errors
    ///
    /// Those of [`fill`](Self::fill), then [`Refusal::OUT_OF_BOUNDS`] if an end is out of range.
    pub fn draw_line(&self, buf: &mut [u8], line: Line, colour: u32) -> Result<u32, Refusal> {
        library::draw_line(buf, *self, line, colour).answer()
    }

    /// Draws the points of the connected line that lie in the frame, and says how many those are.
    ///
    /// # Errors
    ///
    /// Those of [`fill`](Self::fill), then [`Refusal::OUT_OF_BOUNDS`] if an end is out of range.
    pub fn draw_connected_line(&self, buf: &mut [u8], line: ConnectedLine, colour: u32) -> Result<u32, Refusal> {
        library::draw_connected_line(buf, *self, line, colour).answer()
    }

    /// Draws the filled triangle, every pixel of the frame that it [contains](Triangle::contains), and says how many those are.
    ///
    /// ```
    /// use beamacorn::{ByteOrder, Frame, Point, Triangle};
    ///
    /// let pane = Frame::packed(8, 4, 1, ByteOrder::LittleEndian);
    /// let triangle = Triangle::new(Point::new(0, 0), Point::new(3, 0), Point::new(0, 3));
    /// let mut buf = [0; 4];
    /// assert_eq!(pane.draw_triangle(&mut buf, triangle, 1), Ok(10));
    /// assert_eq!(buf, [0b1111_0000, 0b1110_0000, 0b1100_0000, 0b1000_0000]);
    /// assert_eq!(pane.draw_triangle(&mut buf, triangle.translate(Point::new(8, 0)), 1), Ok(0));
    /// ```
    ///
    /// # Errors
    ///
    /// Those of [`fill`](Self::fill), then [`Refusal::OUT_OF_BOUNDS`] if a vertex is out of range.
    pub fn draw_triangle(&self, buf: &mut [u8], triangle: Triangle, colour: u32) -> Result<u32, Refusal> {
        library::draw_triangle(buf, *self, triangle, colour).answer()
    }

    /// Draws the triangle's outline: its three edges, each from its upper end, or from the left one where it is level. So it is the same for any order of the
    /// vertices, and the triangle [contains](Triangle::contains) each pixel of it. Says how many pixels of the frame the edges have; one that two of them
    /// have counts once.
    ///
    /// # Errors
    ///
    /// Those of [`fill`](Self::fill), then [`Refusal::OUT_OF_BOUNDS`] if a vertex is out of range.
    pub fn draw_outline(&self, buf: &mut [u8], triangle: Triangle, colour: u32) -> Result<u32, Refusal> {
        library::draw_outline(buf, *self, triangle, colour).answer()
    }

    /// Draws the filled circle, every pixel of the frame that it [contains](Circle::contains), and says how many those are.
    ///
    /// # Errors
    ///
    /// Those of [`fill`](Self::fill), then [`Refusal::OUT_OF_BOUNDS`] if the corner is out of range, then [`Refusal::CIRCLE_TOO_FAR`] if the box ends past
    /// 131,072.
    pub fn draw_circle(&self, buf: &mut [u8], circle: Circle, colour: u32) -> Result<u32, Refusal> {
        library::draw_circle(buf, *self, circle, colour).answer()
    }

    /// How many pixels of a one-bit frame have the colour 1. Padding, gaps and the bytes past the frame are not counted.
    ///
    /// # Errors
    ///
    /// Those of [`size`](Self::size), then [`Refusal::SHORT_BUFFER`], then [`Refusal::UNFIT_FRAME`] if the depth is not 1. A frame without pixels has none
    /// that are lit.
    pub fn lit(&self, buf: &[u8]) -> Result<u32, Refusal> {
        library::lit(buf, *self).answer()
    }

    /// How many bytes the frame's image file has, in either order, at any distance and whatever its pixels are.
    ///
    /// # Errors
    ///
    /// Those of [`size`](Self::size), then [`Refusal::UNFIT_FRAME`] if the depth is not 1, 8 or 24, or there is no pixel.
    pub fn image_size(&self) -> Result<usize, Refusal> {
        library::beamacorn_image_size(self.width, self.height, self.depth, self.distance).answer()
    }

    /// Writes the frame's image file into the first bytes of `out`, and says how many they are. The bytes past them stay as they are.
    ///
    /// It is a Netpbm file: depth 1 as P4, depth 8 as P5 with the maximum 255, depth 24 as P6, red in the colour's high byte. It holds the picture alone:
    /// whatever the frame's byte order, row distance, padding and tail, the same picture has the same file.
    ///
    /// ```
    /// use beamacorn::{ByteOrder, Frame};
    ///
    /// let little = Frame::packed(1, 1, 24, ByteOrder::LittleEndian);
    /// let mut file = [0; 14];
    /// assert_eq!(little.image_size(), Ok(file.len()));
    /// assert_eq!(little.write_image(&[3, 2, 1], &mut file), Ok(file.len()));
    /// assert_eq!(&file, b"P6\n1 1\n255\n\x01\x02\x03");
    /// ```
    ///
    /// # Errors
    ///
    /// Those of [`size`](Self::size), then [`Refusal::SHORT_BUFFER`], then [`Refusal::UNFIT_FRAME`] as in [`image_size`](Self::image_size), then
    /// [`Refusal::SHORT_OUTPUT`] if `out` is shorter than the file.
    pub fn write_image(&self, buf: &[u8], out: &mut [u8]) -> Result<usize, Refusal> {
        library::write_image(buf, *self, out).answer()
    }

    /// Reads an image file into the frame: sets every pixel to the colour that it has in the file. What [`write_image`](Self::write_image) wrote reads back
    /// to the same picture. The frame's padding, its gaps and the bytes past it stay; the file's padding and the bytes past its pixels are not looked at.
    ///
    /// The header is the magic, the width, the height and, but for a P4, the maximum. Before each of these numbers stand one or more of space, tab, CR and
    /// LF, behind the last one exactly one of them. A number has one to four digits. Comments are not taken.
    ///
    /// ```
    /// use beamacorn::{ByteOrder, Frame, Refusal};
    ///
    /// let grey = Frame::packed(2, 1, 8, ByteOrder::LittleEndian);
    /// let mut buf = [7, 200];
    /// let mut file = [0; 13];
    /// grey.write_image(&buf, &mut file)?;
    /// grey.fill(&mut buf, 0)?;
    /// grey.read_image(&mut buf, &file)?;
    /// assert_eq!(buf, [7, 200]);
    ///
    /// assert_eq!(grey.read_image(&mut buf, b"P5\n# by hand\n2 1\n255\n  "), Err(Refusal::BAD_HEADER));
    /// assert_eq!(grey.read_image(&mut buf, b"P5\n1 2\n255\n  "), Err(Refusal::OTHER_SIZE));
    /// assert_eq!(grey.read_image(&mut buf, b"P5\n2 1\n255\n "), Err(Refusal::SHORT_FILE));
    /// assert_eq!(buf, [7, 200]);
    /// # Ok::<(), Refusal>(())
    /// ```
    ///
    /// # Errors
    ///
    /// Those of [`size`](Self::size), then [`Refusal::SHORT_BUFFER`], then [`Refusal::UNFIT_FRAME`] as in [`image_size`](Self::image_size). Then
    /// [`Refusal::BAD_HEADER`] if the magic is not the depth's, a number is none, the maximum is not 255 or the file ends within its header,
    /// [`Refusal::OTHER_SIZE`] if the file's width or height is another than the frame's, and [`Refusal::SHORT_FILE`] if its pixels are not all there.
    pub fn read_image(&self, buf: &mut [u8], file: &[u8]) -> Result<(), Refusal> {
        Refusal::or(library::read_image(buf, *self, file), ())
    }
}
