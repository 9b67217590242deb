"""Lit pixels of frames: rows that end at every bit of a byte, padding, gaps and tail that are all ones, other depths and buffers that are too short."""

from itertools import product

from model.frames import Frame
from model.replay import BYTES

from .frames import DEPTHS, Drawings, any_order, apart, described
from .questions import asked
from .refusals import OTHER_DEPTHS

PRESETS = [0, 85, 165, 255]
WIDTHS = [*range(18), 23, 24, 25, 31, 32, 33, 63, 64, 65, 2_047, 2_048]
HEIGHTS = [0, 1, 1, 2, 3, 5]
TAIL = 9
IS_REFUSED = 0.05
MOST_CALLS = 3


def every_size(random, sizes, low, high):
    """One-bit frames of each size over each pattern, which stands in padding, gaps and tail too, counted before and after calls."""
    drawings = Drawings(random, [], low, high, with_fill=False, refused=0)
    for width, height in sizes:
        frames = product((Frame.packed(width, height, 1, big) for big in (False, True)), PRESETS)
        yield [line for frame, value in frames for line in over_pattern(random, drawings, apart(random, frame), value)]


def over_pattern(random, drawings, frame, value):
    yield described(frame, min(frame.size() + TAIL, BYTES))
    yield asked("preset", value)
    yield from counted(random, drawings, frame)


def counted(random, drawings, frame):
    """The lit pixels of what is there, and again after every call."""
    yield asked("lit")
    for _ in range(random.randint(1, MOST_CALLS)):
        yield drawings.call(frame.width, frame.height, min(frame.depth, 32))
        yield asked("lit")


class Lights:
    """Frames of every width, most of them with one bit a pixel. Some are of a depth that has no lit pixels, and some are refused."""

    def __init__(self, random):
        self.random = random
        self.drawings = Drawings(random, [], -131_072, 131_071, with_fill=True, refused=0)

    def sequences(self, count):
        """So many frames of each width."""
        return [line for width in WIDTHS for _ in range(count) for line in self.sequence(width)]

    def sequence(self, width):
        height, depth = self.random.choice(HEIGHTS), self.random.choice([1] * 15 + DEPTHS)
        if self.random.random() < IS_REFUSED:
            width, depth = self.random.choice([(width, self.random.choice(OTHER_DEPTHS)), (2_049, depth)])
        frame = apart(self.random, any_order(self.random, width, height, depth))
        length = frame.size() + self.random.choice([0, 0, 0, 1, TAIL, TAIL, -1])
        yield described(frame, max(0, min(length, BYTES)))
        yield asked("preset", self.random.choice([255, 255, self.random.randrange(256)]))
        yield from counted(self.random, self.drawings, frame)
