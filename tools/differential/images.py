"""Frames written as image files: the length beforehand, rooms that are enough and too small, and the file buffer's bytes before, in and behind the file."""

from model import images
from model.replay import BYTES, MOST_DUMPED

from .frames import DEPTHS, Drawings, any_order, apart, described
from .questions import asked
from .refusals import OTHER_DEPTHS

LONGEST_SIDE = 17
# Wide, high, with numbers of two to four digits; the last two of a depth nearly fill the file buffer, and take more than it has.
LARGE = [
    (2_048, 9, 1), (9, 2_048, 1), (1_000, 99, 1), (2_047, 255, 1), (529, 978, 1),
    (2_048, 3, 8), (3, 2_048, 8), (99, 100, 8), (257, 254, 8), (181, 362, 8),
    (2_048, 2, 24), (2, 2_048, 24), (100, 9, 24), (2_048, 10, 24), (257, 85, 24),
]
IS_LARGE = 0.04
IS_REFUSED = 0.05
MOST_PIXELS = 12
# The model paints by asking every pixel: on a frame of more pixels a call sets one alone.
MANY = 20_000


class Images:
    """Frames with something drawn on them, each written several times."""

    def __init__(self, random):
        self.random = random
        self.drawings = Drawings(random, [], -131_072, 131_071, with_fill=True, refused=0)

    def sequences(self, count):
        return [line for _ in range(count) for line in self.written(self.frame())]

    def written(self, frame):
        length = images.length(frame)
        yield described(frame, self.lent(frame.size()))
        yield asked("preset", self.random.randrange(256))
        yield from self.looked_at(length)
        yield from self.content(frame)
        yield asked("imagesize")
        for room in self.random.sample([length, length, length - 1, length + 1, 0, BYTES, BYTES + 1], 3):
            if self.random.random() < 0.5:
                yield asked("wipe", self.random.choice([0, 255, self.random.randrange(256)]))
            yield asked("image", min(room, BYTES + 1))
            yield from self.looked_at(length)
            yield from self.changed(frame)

    def frame(self):
        if self.random.random() < IS_LARGE:
            return apart(self.random, any_order(self.random, *self.random.choice(LARGE)))
        width, height = (self.random.randint(0, LONGEST_SIDE) for _ in range(2))
        depth = self.random.choice([*images.MAGIC] * 6 + DEPTHS)
        if self.random.random() < IS_REFUSED:
            width, depth = self.random.choice([(width, self.random.choice(OTHER_DEPTHS)), (2_049, depth)])
        return apart(self.random, any_order(self.random, width, height, depth))

    def lent(self, size):
        """Mostly enough bytes for the frame, and sometimes one too few."""
        return max(0, min(size + self.random.choice([0, 0, 0, 1, 30, 30, -1]), BYTES))

    def content(self, frame):
        """A drawing call, and pixels of any colour, many of them the last of their row, beside its padding."""
        yield from self.changed(frame)
        if frame.depth in DEPTHS and frame.has(0, 0):
            for _ in range(self.random.randint(1, MOST_PIXELS)):
                place = self.random.choice([frame.width - 1, self.random.randrange(frame.width)]), self.random.randrange(frame.height)
                yield asked("pixel", *place, self.random.randrange(2**frame.depth))

    def changed(self, frame):
        """A drawing call, after which the file is another."""
        if frame.depth not in DEPTHS:
            return
        if frame.width * frame.height > MANY:
            yield self.drawings.pixel(frame.width, frame.height, self.random.randrange(2**frame.depth))
        else:
            yield self.drawings.call(frame.width, frame.height, frame.depth)

    def looked_at(self, length):
        """The file and a little behind it if that is one line, else its begin, some of its middle and its end; and any bytes of the file buffer."""
        end = min(length + 8, BYTES)
        if end <= MOST_DUMPED and self.random.random() < 0.8:
            parts = [(0, end)]
        else:
            start = self.random.randrange(end)
            parts = [(0, 40), (start, self.random.randint(0, min(200, end - start))), (end - 16, 16)]
        start = self.random.randrange(BYTES)
        yield from (asked("file", *part) for part in [*parts, (start, self.random.randint(0, 40))])
