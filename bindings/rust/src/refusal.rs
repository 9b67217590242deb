use core::{error::Error, fmt, num::NonZeroU32};

/// Why a question or a call on a [`Frame`](crate::Frame) has no answer: a number of the library's table. A refused call has changed no byte.
///
/// ```
/// use beamacorn::{Circle, Point, Refusal};
///
/// let refusal = Circle::new(Point::new(131_071, 0), 2).contains(Point::new(0, 0)).unwrap_err();
/// assert_eq!(refusal, Refusal::CIRCLE_TOO_FAR);
/// assert_eq!(refusal.number(), 6);
/// ```
///
/// It is shown alike by `{}` and `{:?}`, so that an `unwrap` that fails says why. A number that was kept, or that a function of C answered, is made one again:
///
/// ```
/// # use beamacorn::Refusal;
/// assert_eq!(Refusal::try_from(6), Ok(Refusal::CIRCLE_TOO_FAR));
/// assert_eq!(Refusal::try_from(0).unwrap_err().to_string(), "0 is the number of no refusal");
/// assert!(Refusal::try_from(15).is_err());
/// ```
#[derive(Clone, Copy, Eq, Hash, PartialEq)]
pub struct Refusal(NonZeroU32);

impl Refusal {
    /// 1: the depth of a frame is not 1, 2, 4, 8, 16, 24 or 32.
    pub const BAD_DEPTH: Refusal = Refusal(NonZeroU32::new(1).unwrap());
    /// 2: the width or the height of a frame is above 2,048.
    pub const TOO_LARGE: Refusal = Refusal(NonZeroU32::new(2).unwrap());
    /// 3: the buffer is shorter than the frame needs.
    pub const SHORT_BUFFER: Refusal = Refusal(NonZeroU32::new(3).unwrap());
    /// 4: the colour is 2 to the power of the depth, or more.
    pub const BAD_COLOUR: Refusal = Refusal(NonZeroU32::new(4).unwrap());
    /// 5: a vertex, line end or circle top-left has a coordinate outside -131,072 to 131,071.
    pub const OUT_OF_BOUNDS: Refusal = Refusal(NonZeroU32::new(5).unwrap());
    /// 6: left + diameter or top + diameter of a circle is above 131,072.
    pub const CIRCLE_TOO_FAR: Refusal = Refusal(NonZeroU32::new(6).unwrap());
    /// 7: a point of a line is asked at a step or an index past its last.
    pub const PAST_LAST_STEP: Refusal = Refusal(NonZeroU32::new(7).unwrap());
    /// 8: a pixel is read outside the frame.
    pub const OUTSIDE_FRAME: Refusal = Refusal(NonZeroU32::new(8).unwrap());
    /// 9: the output is shorter than what is written into it.
    pub const SHORT_OUTPUT: Refusal = Refusal(NonZeroU32::new(9).unwrap());
    /// 10: the operation takes no frame of this depth, or none without pixels.
    pub const UNFIT_FRAME: Refusal = Refusal(NonZeroU32::new(10).unwrap());
    /// 11: an image file does not begin with a header of the frame's format.
    pub const BAD_HEADER: Refusal = Refusal(NonZeroU32::new(11).unwrap());
    /// 12: an image file has fewer bytes of pixels than its picture takes.
    pub const SHORT_FILE: Refusal = Refusal(NonZeroU32::new(12).unwrap());
    /// 13: the picture of an image file is not as wide and as high as the frame.
    pub const OTHER_SIZE: Refusal = Refusal(NonZeroU32::new(13).unwrap());
    /// 14: the row distance of a frame is less than a row takes, or above 16,384.
    pub const BAD_DISTANCE: Refusal = Refusal(NonZeroU32::new(14).unwrap());

    /// The number in the library's table.
    pub const fn number(self) -> u32 {
        self.0.get()
    }

    /// The value that came with a number: refused unless the number is 0.
    pub(crate) fn or<T>(number: u32, value: T) -> Result<T, Refusal> {
        match NonZeroU32::new(number) {
            None => Ok(value),
            Some(number) => Err(Refusal(number)),
        }
    }
}

/// A number that is none of the table of refusals: 0, which is no refusal, or one past the last.
#[derive(Clone, Copy, Debug, Eq, Hash, PartialEq)]
pub struct NoRefusal(u32);

impl TryFrom<u32> for Refusal {
    type Error = NoRefusal;

    fn try_from(number: u32) -> Result<Self, NoRefusal> {
        match NonZeroU32::new(number) {
            Some(known) if number <= Refusal::BAD_DISTANCE.number() => Ok(Refusal(known)),
            _ => Err(NoRefusal(number)),
        }
    }
}

impl fmt::Display for NoRefusal {
    fn fmt(&self, f: &mut fmt::Formatter<'_>) -> fmt::Result {
        write!(f, "{} is the number of no refusal", self.0)
    }
}

impl Error for NoRefusal {}

impl fmt::Display for Refusal {
    fn fmt(&self, f: &mut fmt::Formatter<'_>) -> fmt::Result {
        let why = match *self {
            Refusal::BAD_DEPTH => "the depth is not 1, 2, 4, 8, 16, 24 or 32",
            Refusal::TOO_LARGE => "the frame's width or height is above 2048",
            Refusal::SHORT_BUFFER => "the buffer is too short",
            Refusal::BAD_COLOUR => "the colour does not fit the depth",
            Refusal::OUT_OF_BOUNDS => "a coordinate is outside -131072 to 131071",
            Refusal::CIRCLE_TOO_FAR => "the circle's box ends past 131072",
            Refusal::PAST_LAST_STEP => "the step is past the line's last",
            Refusal::OUTSIDE_FRAME => "the pixel is outside the frame",
            Refusal::SHORT_OUTPUT => "the output is too short",
            Refusal::UNFIT_FRAME => "the frame's depth or size is not taken",
            Refusal::BAD_HEADER => "the file's header is not taken",
            Refusal::SHORT_FILE => "the file has too few pixels",
            Refusal::OTHER_SIZE => "the file's picture has another size",
            Refusal::BAD_DISTANCE => "the rows are too close or too far apart",
            _ => "see the library's table",
        };
        write!(f, "refused with {}: {why}", self.0)
    }
}

impl fmt::Debug for Refusal {
    fn fmt(&self, f: &mut fmt::Formatter<'_>) -> fmt::Result {
        fmt::Display::fmt(self, f)
    }
}

impl Error for Refusal {}
