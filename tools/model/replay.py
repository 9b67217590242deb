"""The program `replay` of docs/REPLAY.md, over the model: a line in, a line out."""

import re
from functools import lru_cache

from . import images, numbers
from .circles import Circle
from .connected import Connected
from .frames import Frame, everywhere
from .lines import Line
from .triangles import Outline, Triangle

BYTES = 65_536
MOST_DUMPED = 4_096
LONGEST_LINE = 128

# The fields that follow each word: numbers of 32 bits, s signed and u unsigned, and h for bytes as hexadecimal digits.
FIELDS = {
    "frame": "uuuuuu", "preset": "u", "read": "ss", "dump": "uu", "lit": "",
    "image": "u", "imagesize": "", "file": "uu", "wipe": "u", "bytes": "uh", "load": "u",
    "pixel": "ssu", "fill": "u", "line": "ssssu", "trace": "ssssu", "triangle": "ssssssu", "outline": "ssssssu", "circle": "ssuu",
    "length": "ssss", "point": "ssssu", "online": "ssssss", "tracelength": "ssss", "tracepoint": "ssssu", "ontrace": "ssssss",
    "inside": "ssssssss", "span": "sssssss", "rows": "ssssss", "disc": "ssuss", "discspan": "ssus",
}
FIELD = {"s": "(-?[0-9]{1,10})", "u": "([0-9]{1,10})", "h": "((?:[0-9a-f]{2}){1,48})"}
RANGE = {"s": range(-(2**31), 2**31), "u": range(2**32)}
SHAPE = {
    word: re.compile("\t".join([word, *(FIELD[kind] for kind in kinds)]).encode()) for word, kinds in FIELDS.items()
}

# Questions on one figure often stand together.
line, connected, triangle, circle = (lru_cache(maxsize=16)(figure) for figure in (Line, Connected, Triangle, Circle))


class BadLine(Exception):
    """A line that is none of docs/REPLAY.md's."""


class Replay:
    def __init__(self):
        self.frame_is(Frame.packed(0, 0, 1, False), 0)
        self.file_buffer = bytearray(BYTES)

    def frame_is(self, frame, length):
        self.now, self.lent_bytes, self.buffer = frame, length, bytearray(BYTES)

    def answer(self, text):
        """The answer to a line, given without its LF."""
        try:
            word, given = parsed(text)
            answer = getattr(self, word)(*given)
        except BadLine:
            return "bad line"
        return answer if isinstance(answer, str) else "\t".join(str(int(value)) for value in answer)

    # The state and its bytes.

    def frame(self, width, height, depth, order, length, distance):
        if order > 1 or length > BYTES:
            raise BadLine
        self.frame_is(Frame(width, height, depth, order == 1, distance), length)
        return answered(numbers.first(numbers.description(self.now)), 1, lambda: [self.now.size()])

    def preset(self, value):
        self.buffer = filled(value)
        return [0]

    def dump(self, start, count):
        return shown(self.buffer, start, count)

    def read(self, x, y):
        number = numbers.first(*self.lent(), numbers.read(self.now, x, y))
        return answered(number, 1, lambda: [self.now.read(self.buffer, x, y)])

    def lit(self):
        number = numbers.first(*self.lent(), numbers.lights(self.now))
        return answered(number, 1, lambda: [self.now.lit(self.buffer)])

    def lent(self):
        return numbers.description(self.now), numbers.buffer(self.now, self.lent_bytes)

    # Image files, in a buffer of their own.

    def image(self, room):
        if room > BYTES:
            raise BadLine
        number = numbers.first(*self.lent(), numbers.image(self.now), numbers.output(self.now, room))
        if number == 0:
            file = images.written(self.now, self.buffer)
            self.file_buffer[:len(file)] = file
        return answered(number, 1, lambda: [images.length(self.now)])

    def imagesize(self):
        number = numbers.first(numbers.description(self.now), numbers.image(self.now))
        return answered(number, 1, lambda: [images.length(self.now)])

    def file(self, start, count):
        return shown(self.file_buffer, start, count)

    def wipe(self, value):
        self.file_buffer = filled(value)
        return [0]

    def bytes(self, start, given):
        if start + len(given) > BYTES:
            raise BadLine
        self.file_buffer[start:start + len(given)] = given
        return [0]

    def load(self, length):
        if length > BYTES:
            raise BadLine
        file = self.file_buffer[:length]
        number = numbers.first(*self.lent(), numbers.image(self.now), numbers.file(self.now, file))
        if number == 0:
            *_, pixels = images.headed(self.now.depth, file)
            images.read_into(self.now, self.buffer, pixels)
        return [number]

    # Drawing calls.

    def pixel(self, x, y, colour):
        return self.drawn(lambda: [(x, y)] if self.now.has(x, y) else [], colour)

    def fill(self, colour):
        return self.painted(everywhere, colour)

    def line(self, *given):
        *ends, colour = given
        return self.painted(Line(*ends).contains, colour, numbers.coordinates(*ends))

    def trace(self, *given):
        *ends, colour = given
        return self.painted(Connected(*ends).contains, colour, numbers.coordinates(*ends))

    def triangle(self, *given):
        *vertices, colour = given
        return self.painted(Triangle(*vertices).contains, colour, numbers.coordinates(*vertices))

    def outline(self, *given):
        *vertices, colour = given
        return self.painted(Outline(*vertices).contains, colour, numbers.coordinates(*vertices))

    def circle(self, left, top, diameter, colour):
        figure = Circle(left, top, diameter)
        return self.painted(figure.contains, colour, *on_circle(left, top, diameter))

    def painted(self, contains, colour, *tests):
        return self.drawn(lambda: self.now.pixels(contains), colour, *tests)

    def drawn(self, pixels, colour, *tests):
        """Sets the pixels, which are looked for only if the call is not refused, and says how many they are: of `pixel` 1 if it is inside, else 0."""
        number = numbers.first(*self.lent(), numbers.colour(self.now, colour), *tests)
        if number != 0:
            return [number, 0]
        seen = pixels()
        self.now.paint(self.buffer, seen, colour)
        return [0, len(seen)]

    # Questions on figures.

    def length(self, *ends):
        return length_of(line, ends)

    def point(self, *given):
        return point_of(line, given)

    def online(self, *given):
        return is_point_of(line, given)

    def tracelength(self, *ends):
        return length_of(connected, ends)

    def tracepoint(self, *given):
        return point_of(connected, given)

    def ontrace(self, *given):
        return is_point_of(connected, given)

    def inside(self, *given):
        *vertices, x, y = given
        return answered(numbers.first(numbers.coordinates(*vertices)), 1, lambda: [triangle(*vertices).contains(x, y)])

    def span(self, *given):
        *vertices, y = given
        return answered(numbers.first(numbers.coordinates(*vertices)), 2, lambda: triangle(*vertices).span(y))

    def rows(self, *vertices):
        return answered(numbers.first(numbers.coordinates(*vertices)), 2, lambda: triangle(*vertices).rows())

    def disc(self, left, top, diameter, x, y):
        number = numbers.first(*on_circle(left, top, diameter))
        return answered(number, 1, lambda: [circle(left, top, diameter).contains(x, y)])

    def discspan(self, left, top, diameter, y):
        number = numbers.first(*on_circle(left, top, diameter))
        return answered(number, 2, lambda: circle(left, top, diameter).span(y))


def filled(value):
    """A buffer in which each byte is the value."""
    if value > 255:
        raise BadLine
    return bytearray([value]) * BYTES


def shown(buffer, start, count):
    if count > MOST_DUMPED or start + count > BYTES:
        raise BadLine
    return buffer[start:start + count].hex()


def length_of(figure, ends):
    return answered(numbers.first(numbers.coordinates(*ends)), 1, lambda: [figure(*ends).points()])


def point_of(figure, given):
    *ends, k = given
    number = numbers.first(numbers.coordinates(*ends), numbers.step(figure(*ends), k))
    return answered(number, 2, lambda: figure(*ends).point(k))


def is_point_of(figure, given):
    *ends, x, y = given
    return answered(numbers.first(numbers.coordinates(*ends)), 1, lambda: [figure(*ends).contains(x, y)])


def on_circle(left, top, diameter):
    return numbers.coordinates(left, top), numbers.circle(left, top, diameter)


def answered(number, count, values):
    """The number and its values; with a refusal each of the count values is 0."""
    return [number, *values()] if number == 0 else [number] + [0] * count


def parsed(text):
    word = text.split(b"\t", 1)[0].decode("latin-1")
    taken = word in FIELDS and len(text) <= LONGEST_LINE and SHAPE[word].fullmatch(text)
    if not taken:
        raise BadLine
    return word, [valued(kind, field) for kind, field in zip(FIELDS[word], taken.groups())]


def valued(kind, field):
    if kind == "h":
        return bytes.fromhex(field.decode())
    number = int(field)
    if number not in RANGE[kind]:
        raise BadLine
    return number
