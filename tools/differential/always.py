"""Cases that the stored list has whatever its seed: frames of every small width and of the largest, filled, set and read, frames and colours that are refused,
overlapping figures in several orders, and numbers in every form."""

from model.frames import Frame

from .frames import DEPTHS, described, dumps
from .questions import asked
from .refusals import NUMBERS_NOT_TAKEN, NUMBERS_TAKEN

ORDERS = [False, True]
# Up to this depth the order has no effect.
ONE_BYTE = 8
WIDTHS = range(18)
# 0xA5, so that one sees which bits a call leaves alone.
PATTERN = 165
TAIL = 5

# More than any of these frames takes, but for one that is too large.
LENT = 16_392
REFUSED = [
    (Frame.packed(4, 4, 3, False), 0),
    (Frame.packed(4, 4, 0, True), 9),
    (Frame.packed(2_049, 4, 1, False), 2),
    (Frame.packed(2**32 - 1, 2_048, 32, False), 0),
    (Frame.packed(4, 2_049, 32, True), 0),
    (Frame.packed(2_048, 3, 32, True), 2**32 - 1),
    (Frame.packed(7, 2, 24, False), 2**24),
    (Frame.packed(10, 3, 1, False), 2),
]

SKY = ["fill 1"]
WEDGE = ["triangle -3 1 9 0 4 12 0"]
SUN = ["circle 4 2 7 1"]
RIM = ["outline 0 0 10 3 2 8 0"]
RAY = ["line -131072 -5 131071 12 1"]
DOTS = ["pixel 6 4 0", "pixel 11 4 1"]
OUT_OF_RANGE = [
    "line 0 0 131072 0 1",
    "outline 0 0 0 -131073 9 9 1",
    "triangle 0 0 9 9 2147483647 0 1",
    "circle 0 0 131073 0",
    "fill 4294967295",
]
PICTURES = [SUN + WEDGE + RAY + RIM + DOTS, SKY + RIM + SUN + DOTS + WEDGE, OUT_OF_RANGE + WEDGE + SUN + DOTS + RAY]

NUMBERS = [*NUMBERS_TAKEN, *NUMBERS_NOT_TAKEN, "00000000001", "-00000000001", "2147483649", "/", ":", "1-", "-+1"]


def cases():
    return [*every_width(), *refused_frames(), *overlapping_figures(), *every_number()]


def every_width():
    """Each depth in both orders; where these have no effect the small widths take turns with them."""
    for depth in DEPTHS:
        for width in WIDTHS:
            for big in ORDERS if depth > ONE_BYTE else [width % 2 == 1]:
                frame = Frame.packed(width, 3, depth, big)
                yield from filled_and_set(frame, beside(frame) if width == WIDTHS[-1] else [])
        for big in ORDERS:
            frame = Frame.packed(2_048, 2, depth, big)
            yield from filled_and_set(frame, beside(frame))


def filled_and_set(frame, more):
    """The frame filled over a pattern, a pixel of its last column set to a colour of which every bit differs from the fill's, and read back."""
    colour = colour_of(frame)
    place = frame.width - 1, frame.width % frame.height
    lines = [described(frame, frame.size() + TAIL), asked("preset", PATTERN), asked("fill", colour)]
    lines += [asked("pixel", *place, 2**frame.depth - 1 - colour), asked("read", *place)]
    return [*lines, *more, *dumps(frame)]


def colour_of(frame):
    return ((frame.width + 1) * 2_654_435_761 + 7 * 40_503) % 4_294_967_291 >> 32 - frame.depth


def beside(frame):
    """Places that the frame has not, set and read."""
    right, below = (frame.width, 0), (0, frame.height)
    lines = [asked("pixel", *place, 1) for place in [(-1, 0), (0, -(2**31)), right, below]]
    return lines + [asked("read", *place) for place in [right, (2**31 - 1, -1)]]


def refused_frames():
    """Every call is refused, and no byte changes."""
    for frame, colour in REFUSED:
        yield from [described(frame, LENT), asked("preset", PATTERN)]
        yield from [asked("pixel", 0, 0, colour), asked("read", 0, 0), asked("fill", colour), asked("dump", 0, 48)]


def overlapping_figures():
    """The same figures in several orders, one picture over the other, with calls among them that are refused at most or at all depths."""
    for depth in DEPTHS:
        for big in ORDERS:
            frame = Frame.packed(11, 9, depth, big)
            yield described(frame, frame.size() + 3)
            for calls in PICTURES:
                yield from [*(call.replace(" ", "\t") for call in calls), *dumps(frame)]


def every_number():
    """In the place of a number with a sign, and of one without."""
    for number in NUMBERS:
        yield from [asked("length", number, 0, 0, 0), asked("point", 0, 0, 0, 0, number)]
