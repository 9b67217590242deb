"""Frames and drawing calls, with the bytes after each: at the sizes that the Rust was compiled for, and at others; many with a gap between their rows."""

from dataclasses import replace
from itertools import chain, cycle, product

from model.frames import Frame
from model.replay import BYTES, MOST_DUMPED

from .questions import asked

DEPTHS = [1, 2, 4, 8, 16, 24, 32]
SMALL = 200
# Figures are counted on this frame, with corners in it and beside it.
COUNTED = 4, 4
AROUND = list(product(range(-1, 5), repeat=2))
LARGEST_COUNTED = 9
CORNER_DIAMETERS = [1, 4, 100, 8_191, 8_192, 8_193, 16_383, 16_384]
AT_THE_ENDS = 0.05
# The bytes between two rows.
FEW = range(10)
THOUSANDS = [1_000, 2_047, 4_096, 8_191, 16_000]
IS_PACKED = 0.4
IS_FAR_APART = 0.05


def described(frame, length):
    """The line that describes a frame over so many bytes."""
    return asked("frame", frame.width, frame.height, frame.depth, int(frame.big), length, frame.distance)


def dumps(frame):
    """The frame's bytes and some of the tail, in as many lines as they need."""
    end = min(frame.size() + 8, BYTES)
    return [asked("dump", start, min(end - start, MOST_DUMPED)) for start in range(0, end, MOST_DUMPED)]


def with_gap(frame, gap):
    return replace(frame, distance=frame.distance + gap)


def fits(frame):
    return frame.distance <= 16_384 and frame.size() <= BYTES


def apart(random, frame):
    """The frame as it is, or with a gap between its rows, as far as the buffer holds it then."""
    gaps = THOUSANDS if random.random() < IS_FAR_APART else FEW
    wider = [*filter(fits, (with_gap(frame, gap) for gap in gaps))]
    return random.choice(wider) if wider and random.random() > IS_PACKED else frame


def any_order(random, width, height, depth):
    return Frame.packed(width, height, depth, random.random() < 0.5)


def of_any_depth(random, width, height):
    """A frame of the size that the buffer holds."""
    return random.choice([*filter(fits, (any_order(random, width, height, depth) for depth in DEPTHS))])


def every_pixel(random, sizes):
    """Each pixel of each small frame at each depth and order, set over a pattern and read back."""
    for width, height in sizes:
        if width * height <= SMALL:
            frames = (Frame.packed(width, height, depth, big) for depth, big in product(DEPTHS, (False, True)))
            yield [line for frame in frames for line in one_by_one(random, with_gap(frame, random.choice([0, 0, *FEW])))]


def one_by_one(random, frame):
    lines = [described(frame, frame.size()), asked("preset", random.choice([0, 85, 165, 255]))]
    for x, y in product(range(-1, frame.width + 1), range(-1, frame.height + 1)):
        colour = random.choice([0, 2**frame.depth - 1, random.randrange(2**frame.depth)])
        lines += [asked("pixel", x, y, colour), asked("read", x, y), *dumps(frame)]
    return lines


def every_figure(random):
    """Every line, connected or not, triangle and outline with its corners on a small frame and beside it, those that are flat or a dot too, and every circle
    about the frame, each depth and order in turn: how many pixels of the frame each has. A connected line is drawn on zeros and an outline over its fill, and
    the bytes are shown."""
    lines, connected = ([[(word, *start, *end) for end in AROUND] for start in AROUND] for word in ("line", "trace"))
    triples = [[(*v1, *v2, *v3) for v3 in AROUND] for v1, v2 in product(AROUND, repeat=2)]
    triangles, outlines = ([[(word, *vertices) for vertices in some] for some in triples] for word in ("triangle", "outline"))
    circles = [[("circle", left, top, diameter) for left, top in about(diameter)] for diameter in range(LARGEST_COUNTED + 1)]
    frames = cycle(Frame.packed(*COUNTED, depth, big) for depth, big in product(DEPTHS, (False, True)))
    for figures in (lines, connected, triangles, outlines, circles):
        yield [line for some in figures for line in on_one_frame(random, with_gap(next(frames), random.randrange(3)), some)]


def about(diameter):
    """Where a circle touches the frame, and one place further."""
    return product(*(range(-diameter - 1, side + 2) for side in COUNTED))


def on_one_frame(random, frame, figures):
    return [described(frame, frame.size()), *(line for figure in figures for line in lines_of(figure, frame, random.randrange(2**frame.depth)))]


def lines_of(figure, frame, colour):
    word, *numbers = figure
    shown = dumps(frame)
    if word == "trace":
        return [asked("preset", 0), asked(*figure, max(colour, 1)), *shown]
    if word == "outline":
        # No bit of the fill's colour is the outline's, so that every pixel of the outline shows.
        return [asked("triangle", *numbers, 2**frame.depth - 1 - colour), asked(*figure, colour), *shown]
    return [asked(*figure, colour)]


def corners(random, sizes, low, high):
    """Figures whose places are the range's corners and middles, up to the circle whose box is the whole range, each on a frame of its own."""
    # Halfway out, where many points of a line are ties: one pixel more or less at its far end shows near the frame.
    places = product([low, low // 2, -1, 0, (high + 1) // 2, high], repeat=2)
    figures = [(word, *start, *end) for start, end in product(places, repeat=2) for word in ("line", "trace")]
    triples = product(product([low, -1, high], repeat=2), repeat=3)
    figures += [(word, *chain(*vertices)) for vertices in triples for word in ("triangle", "outline")]
    figures += [("circle", left, top, diameter) for diameter in CORNER_DIAMETERS for left, top in boxes(low, high, diameter)]
    for word in ("line", "trace", "triangle", "outline", "circle"):
        yield [line for figure in figures if figure[0] == word for line in drawn_alone(random, random.choice(sizes), figure)]


def boxes(low, high, diameter):
    """Where a circle's box touches the ends of the range, and between."""
    last = high + 1 - diameter
    return product(sorted({low, last, (low + last) // 2}), repeat=2)


def drawn_alone(random, size, figure):
    """A figure on a frame of its own, and the bytes after."""
    frame = apart(random, of_any_depth(random, *size))
    return [described(frame, frame.size()), asked(*figure, random.randint(1, 2**frame.depth - 1)), *dumps(frame)]


class Drawings:
    """Sequences of calls on frames of the given sizes, with figures from low to high: on the frame, near it, far off and at the ends of the range. A share
    of the calls is refused."""

    def __init__(self, random, sizes, low, high, with_fill, refused):
        self.random, self.sizes, self.low, self.high, self.refused = random, sizes, low, high, refused
        self.calls = [self.pixel, self.line, self.trace, self.triangle, self.outline, self.circle] + [self.fill] * with_fill

    def sequences(self, count):
        return [line for _ in range(count) for line in self.sequence()]

    def sequence(self):
        frame = apart(self.random, of_any_depth(self.random, *self.random.choice(self.sizes)))
        yield described(frame, self.random.choice([frame.size(), min(frame.size() + self.random.randrange(40), BYTES)]))
        if self.random.random() < 0.5:
            yield asked("preset", self.random.randrange(256))
        for _ in range(self.random.randint(1, 12)):
            yield self.call(frame.width, frame.height, frame.depth)
            yield self.random.choice(dumps(frame))
            yield asked("read", *self.place(frame.width, frame.height))
        yield from dumps(frame)

    def call(self, width, height, depth):
        colour = self.random.choice([0, 2**depth - 1, self.random.randrange(2**depth)])
        if self.random.random() < self.refused:
            return self.refused_call(width, height, depth, colour)
        return self.random.choice(self.calls)(width, height, colour)

    def refused_call(self, width, height, depth, colour):
        if depth < 32 and self.random.random() < 0.5:
            return self.random.choice(self.calls)(width, height, 2**depth + self.random.randrange(9))
        word, corners = self.random.choice([("line", 2), ("trace", 2), ("triangle", 3), ("outline", 3)])
        numbers = [coordinate for _ in range(corners) for coordinate in self.place(width, height)]
        numbers[self.random.randrange(len(numbers))] = self.random.choice([131_072, -131_073])
        return asked(word, *numbers, colour)

    def pixel(self, width, height, colour):
        return asked("pixel", *self.place(width, height), colour)

    def fill(self, width, height, colour):
        return asked("fill", colour)

    def line(self, width, height, colour, word="line"):
        return asked(word, *self.place(width, height), *self.place(width, height), colour)

    def trace(self, width, height, colour):
        return self.line(width, height, colour, "trace")

    def triangle(self, width, height, colour, word="triangle"):
        corners = [coordinate for _ in range(3) for coordinate in self.place(width, height)]
        return asked(word, *corners, colour)

    def outline(self, width, height, colour):
        return self.triangle(width, height, colour, "outline")

    def circle(self, width, height, colour):
        """A circle about a place, moved until its box lies in the range."""
        across = self.high - self.low + 1
        likely = [6] * 3 + [2 * (width + height) + 6] * 3 + [2 ** self.random.randint(0, across.bit_length() - 1), across]
        diameter = min(self.random.randint(0, self.random.choice(likely)), across)
        corner = (self.bounded(centre - diameter // 2, self.high + 1 - max(diameter, 1)) for centre in self.place(width, height))
        return asked("circle", *corner, diameter, colour)

    def place(self, width, height):
        """A place in the frame, near it, far away or at an end of the range."""
        if self.random.random() < AT_THE_ENDS:
            return self.random.choice([self.low, self.high]), self.random.choice([self.low, self.high, 0])
        reach = self.random.choice([0, 0, 2, 10, -self.low])
        return tuple(self.bounded(self.random.randint(-reach, max(side - 1, 0) + reach), self.high) for side in (width, height))

    def bounded(self, coordinate, most):
        return max(self.low, min(coordinate, most))
