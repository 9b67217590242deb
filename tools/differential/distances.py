"""Row distances: at every depth gaps of 0 to 9 bytes and of thousands, with bytes in them that show, and distances that are refused, each against the other
reasons that an operation may have."""

from dataclasses import replace
from itertools import product

from model.frames import Frame
from model.replay import BYTES

from .frames import DEPTHS, FEW, SMALL, THOUSANDS, described, dumps, fits, with_gap
from .questions import asked
from .refusals import OTHER_DEPTHS

PATTERNS = [85, 90, 165, 255]
SHORT_OF = [0, 0, 1, 1, 2, 9]
FURTHEST = 16_384
FAR = 131_072


def every_gap(random, sizes):
    """Small frames at each depth and order with each gap of a few bytes, and with one of thousands if the buffer holds it: painted all over, then at the ends of
    the rows and behind them, every byte shown."""
    for width, height in sizes:
        if width * height <= SMALL:
            frames = [Frame.packed(width, height, depth, big) for depth, big in product(DEPTHS, (False, True))]
            spread = [with_gap(frame, gap) for frame in frames for gap in [*FEW, random.choice(THOUSANDS)]]
            yield [line for frame in filter(fits, spread) for line in painted(random, frame)]


def painted(random, frame):
    width, height, most = frame.width, frame.height, 2**frame.depth - 1
    beyond = 2 * (width + height) + 2
    yield described(frame, min(frame.size() + random.choice([0, 3]), BYTES))
    yield asked("preset", random.choice(PATTERNS))
    yield asked("triangle", -1, -1, beyond, -1, -1, beyond, random.choice([0, most]))
    yield from dumps(frame)
    for x, y in [(width - 1, random.randrange(max(height, 1))), (0, height - 1), (width, 0), (width - 1, height)]:
        yield from [asked("pixel", x, y, random.randint(0, most)), asked("read", x, y)]
    yield asked("line", -2, random.randrange(height + 1), width + 9, random.randrange(height + 1), random.randint(0, most))
    yield asked("circle", width - 2, -1, 5, random.randint(0, most))
    yield asked("outline", width - 1, 0, width + 3, height, 0, height - 1, random.randint(0, most))
    yield from [asked("lit")] * (frame.depth == 1)
    yield from dumps(frame)


class Distances:
    """Frames whose distance stands at, and one past, what is taken. Some have a depth, a side or a buffer that is refused, and every operation is asked for on
    each, with numbers that it would refuse and with such as it would not."""

    def __init__(self, random):
        self.random = random

    def sequences(self, count):
        return [line for _ in range(count) for line in self.sequence()]

    def sequence(self):
        frame = self.frame()
        yield described(frame, max(0, min(frame.size() - self.random.choice(SHORT_OF), BYTES)))
        yield asked("preset", self.random.choice(PATTERNS))
        for operation in self.random.sample(operations := self.operations(frame), len(operations)):
            yield asked(*operation)
        yield self.random.choice(dumps(frame))
        yield asked("file", 0, 40)

    def frame(self):
        width, height = self.random.choice([0, 1, 3, 8, 9, 17]), self.random.choice([0, 1, 2, 3, 5])
        width, height = self.random.choice([(width, height)] * 8 + [(2_048, height), (2_049, height), (width, 2_049)])
        depth = self.random.choice(DEPTHS * 3 + [1, 8, 24] * 4 + OTHER_DEPTHS)
        packed = Frame.packed(width, height, depth, self.random.random() < 0.5)
        least = packed.distance
        distances = [least, least - 1, least - 1, least + 1, 0, FURTHEST - 1, FURTHEST, FURTHEST + 1, 2**31, 2**32 - 1, self.random.randint(0, FURTHEST)]
        return replace(packed, distance=max(0, min(self.random.choice(distances), 2**32 - 1)))

    def operations(self, frame):
        """Every operation on a frame, its numbers taken or refused."""
        colour = self.random.choice([0, 1, 2 ** min(frame.depth, 31)])
        x, y = self.random.choice([(0, 0), (frame.width - 1, frame.height - 1), (-1, 0)])
        far = self.random.choice([9, 9, FAR])
        return [
            ("pixel", x, y, colour), ("fill", colour), ("line", x, y, far, 1, colour), ("trace", 2, 2, far, y, colour),
            ("triangle", 0, 0, far, 0, x, 9, colour), ("outline", 0, 0, 2, far, 5, 1, colour), ("circle", 0, 0, far + 1, colour),
            ("read", x, y), ("lit",), ("imagesize",), ("image", self.random.choice([0, 60, BYTES])), ("load", self.random.choice([0, 60, BYTES])),
        ]
