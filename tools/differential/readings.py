"""Image files read back into frames: headers with any white space and leading zeros, what spoils a header in each of its places, files that end early or
late, other sizes and formats, and what `image` wrote for a frame of another byte order and row distance; the frame's bytes after each, padding, gaps and tail
too."""

from dataclasses import dataclass, replace
from itertools import product

from model import images
from model.frames import Frame
from model.replay import BYTES

from .frames import any_order, apart, described, dumps
from .images import IS_LARGE, LARGE, Images
from .questions import asked
from .refusals import OTHER_DEPTHS

SPACES = [b" ", b"\t", b"\r", b"\n"]
# What is white space to others, stands beside the digits, or begins a comment or a number elsewhere.
OTHER_BYTES = [b"\v", b"\f", b"\0", b"#", b".", b"/", b":", b"x", b"\x85", b"\xff"]
OTHER_MAGIC = [b"P1", b"P4", b"P5", b"P6", b"P7", b"p5", b"Q6", b"P", b"", b" P4"]
OTHER_MAXIMA = [b"254", b"256", b"0", b"25", b"2550", b"65535"]
OTHER_CLOSING = [b"", b"0", b"#", b"\v", b"\0"]
COMMENTS = [b"#\n", b"# CREATOR: by hand\n", b"# 2 1\n", b"#"]
LONGEST_LINE = 48
WIDEST = {1: 17, 8: 9, 24: 5}
HIGHEST = 4
MOST_PIXELS = 100
IS_UNFIT = 0.15
IS_SHORT = 0.04
IS_SPOILED = 0.5
IS_OTHER_SIZE = 0.15
IS_WRITTEN = 0.2
IS_DRAWN_ON = 0.1
# Of each format: small enough for one line, with padding at depth 1, and fields that have a zero within four digits.
SMALL = [(Frame.packed(3, 2, 1, False), b"P4\n3 2\n"), (Frame.packed(2, 1, 8, False), b"P5 2\t01\n255\n"), (Frame.packed(1, 2, 24, False), b"P6\r1 2\n0255 ")]
AT_ONCE = 16


def laid(file, start=0):
    """The lines that put a file into the file buffer."""
    return [asked("bytes", start + at, file[at:at + LONGEST_LINE].hex()) for at in range(0, len(file), LONGEST_LINE)]


def read(frame, file):
    return [*laid(file), asked("load", len(file)), *dumps(frame)]


def every_spoiled_header(random):
    """A small file of each format with each byte of its header replaced by each of 256 values, ended at each place, with fields of 0 to 6 digits, with runs of
    white space up to the end of the file buffer."""
    for frame, header in SMALL:
        replaced = [header[:place] + bytes([value]) + header[place + 1:] for place, value in product(range(len(header)), range(256))]
        yield in_runs(random, frame, [head + random.randbytes(frame.size()) for head in replaced])
        file = header + random.randbytes(frame.size() + 2)
        yield in_runs(random, frame, [file[:length] for length in range(1, len(file) + 1)])
        yield in_runs(random, frame, [head + random.randbytes(frame.size()) for head in of_other_digits(frame)])
        yield [line for behind in range(-3, 4) for value in b" \t0#" for line in to_the_end(random, frame, value, behind)]


def in_runs(random, frame, files):
    """The files, some to a frame, which is set to a pattern first."""
    lines = []
    for start in range(0, len(files), AT_ONCE):
        target = of_same_size(random, frame)
        lines += [described(target, target.size() + 2), asked("preset", random.choice([0, 255, random.randrange(256)]))]
        lines += [line for file in files[start:start + AT_ONCE] for line in read(target, file)]
    return lines


def of_same_size(random, frame):
    """A frame that takes the same files, in any order and with any gap."""
    return apart(random, any_order(random, frame.width, frame.height, frame.depth))


def of_other_digits(frame):
    """Each field in turn with 0 to 6 digits, zeros in front, and without its value."""
    right = fields_of(frame)
    for place, digits, value in product(range(len(right)), range(7), ("", "0", None)):
        field = (str(right[place]) if value is None else value).zfill(digits)[-digits:] if digits else ""
        yield (f"{images.MAGIC[frame.depth]} " + "".join(f"{field if at == place else other} " for at, other in enumerate(right))).encode()


def fields_of(frame):
    return [frame.width, frame.height] + [255] * (frame.depth > 1)


def to_the_end(random, frame, value, behind):
    """The fields at the very end of the file buffer, a run of one byte before them, and so many bytes more or less than the pixels need behind them."""
    fields = b" ".join(str(field).encode() for field in fields_of(frame)) + b"\n"
    file = fields + random.randbytes(max(frame.size() + behind, 0))
    yield described(replace(frame, big=random.random() < 0.5), frame.size())
    yield asked("wipe", value)
    yield from laid(images.MAGIC[frame.depth].encode() + b" ")
    yield from laid(file, BYTES - len(file))
    for length in (BYTES, BYTES - 1, BYTES - len(file), BYTES - len(file) + len(fields), BYTES - len(file) + len(fields) - 1):
        yield from [asked("load", length), *dumps(frame)]


@dataclass
class Parts:
    """A file in parts: a gap stands before each field, and a byte of white space between the last and the pixels."""

    magic: bytes
    gaps: list
    fields: list
    closing: bytes
    pixels: bytes

    def file(self):
        return self.magic + b"".join(gap + field for gap, field in zip(self.gaps, self.fields)) + self.closing + self.pixels


class Readings:
    """Frames over patterns, into each of which several files are read. Some files are what `image` wrote for the same picture's other byte order."""

    def __init__(self, random):
        self.random, self.images, self.deck = random, Images(random), []
        kinds = {
            self.other_magic: OTHER_MAGIC, self.other_maximum: OTHER_MAXIMA, self.other_digits: [0, 5, 5, 6], self.other_byte: OTHER_BYTES, self.any_byte: [1, 1],
            self.before_field: [b"+", b"-"], self.comment: COMMENTS, self.no_gap: [0, -1], self.other_closing: OTHER_CLOSING, self.more_closing: [*SPACES, b"\r\n"],
            self.fewer_pixels: [1, 1, 2, BYTES], self.more_pixels: [1, 9], self.no_end: [0, 1],
        }
        self.spoils = [(spoil, variant) for spoil, variants in kinds.items() for variant in variants]

    def sequences(self, count):
        return [line for _ in range(count) for line in self.sequence()]

    def sequence(self):
        if self.random.random() < IS_LARGE:
            return self.written_and_read(apart(self.random, any_order(self.random, *self.random.choice(LARGE))))
        return self.files_read(self.frame())

    def frame(self):
        """Mostly one that has a format."""
        depth = self.random.choice([*images.MAGIC])
        width, height = self.random.randint(1, WIDEST[depth]), self.random.randint(1, HIGHEST)
        if self.random.random() < IS_UNFIT:
            without_format, refused = self.random.choice([2, 4, 16, 32]), self.random.choice(OTHER_DEPTHS)
            unfit = [(0, height, depth), (width, 0, depth), (2_049, height, depth), (width, height, refused)]
            width, height, depth = self.random.choice([*unfit, *[(width, height, without_format)] * 3])
        return apart(self.random, any_order(self.random, width, height, depth))

    def files_read(self, frame):
        yield described(frame, self.lent(frame))
        yield asked("preset", self.random.choice([0, 255, self.random.randrange(256)]))
        for _ in range(self.random.randint(1, 8)):
            file = self.file(frame)
            yield from laid(file)
            yield asked("load", self.random.choice([len(file)] * 6 + [BYTES, self.random.randint(0, len(file))]))
            yield self.random.choice(dumps(frame))
            if self.random.random() < IS_DRAWN_ON:
                yield from self.images.changed(frame)
        if self.random.random() < IS_WRITTEN:
            yield from self.written_and_read(frame)

    def lent(self, frame):
        """Mostly enough bytes. A frame without a format is often refused for that reason too."""
        is_short = self.random.random() < (IS_SHORT if images.has_format(frame) else 0.5)
        return max(0, min(frame.size() + (-1 if is_short else self.random.choice([0, 0, 1, 9])), BYTES))

    def written_and_read(self, frame):
        """A frame written, and its file read into a frame of either order and with any gap, with too few bytes, and with others behind it."""
        yield described(frame, min(frame.size(), BYTES))
        yield asked("preset", self.random.randrange(256))
        yield from self.images.content(frame)
        yield asked("wipe", self.random.choice([0, 10, 255]))
        yield asked("image", BYTES)
        target = of_same_size(self.random, frame)
        yield described(target, self.lent(target))
        yield asked("preset", self.random.choice([0, 255, self.random.randrange(256)]))
        length, header = images.length(frame), len(images.header(frame))
        for short in self.random.sample([length, length - 1, header, header - 1, BYTES, 0], 3):
            yield asked("load", max(0, min(short, BYTES)))
            yield from self.random.sample(shown := dumps(target), min(len(shown), 2))
            yield from self.images.changed(target)

    def file(self, frame):
        """A good file for the frame, in half of the cases with one or two things about it that may be bad."""
        depth = frame.depth if frame.depth in images.MAGIC else self.random.choice([*images.MAGIC])
        fields = [self.digits(field) for field in fields_of(Frame.packed(*self.size(frame), depth, True))]
        parts = Parts(images.MAGIC[depth].encode(), [self.gap() for _ in fields], fields, self.random.choice(SPACES), self.pixels(frame))
        for _ in range(self.random.choice([1, 1, 2]) if self.random.random() < IS_SPOILED else 0):
            self.spoil(parts)
        return parts.file()

    def spoil(self, parts):
        """By the next of a deck that has every way once."""
        self.deck = self.deck or self.random.sample(self.spoils, len(self.spoils))
        way, variant = self.deck.pop()
        way(parts, variant)

    def size(self, frame):
        """Mostly that of the frame."""
        width, height = frame.width, frame.height
        if self.random.random() > IS_OTHER_SIZE:
            return width, height
        another = self.random.choice([0, width + 1, height + 1, max(width - 1, 0), width + 256, 2_048, 9_999])
        return self.random.choice([(height, width), (another, height), (width, another)])

    def digits(self, number):
        return str(number).zfill(self.random.choice([1, 1, 2, 3, 4])).encode()

    def gap(self):
        return b"".join(self.random.choices(SPACES, k=self.random.choice([1, 1, 1, 2, 3])))

    def pixels(self, frame):
        """Often white space and digits, which are pixels like others. A frame that is refused may be larger than any file."""
        size = min(images.in_file(frame).size(), MOST_PIXELS)
        return self.random.randbytes(size) if self.random.random() < 0.7 else bytes(self.random.choices(b" \t\r\n0#", k=size))

    # What may spoil a file, in the one of several ways that a variant says.

    def other_magic(self, parts, magic):
        parts.magic = magic

    def other_maximum(self, parts, maximum):
        parts.fields[-1] = maximum

    def other_digits(self, parts, count):
        place = self.random.randrange(len(parts.fields))
        parts.fields[place] = parts.fields[place].zfill(count) if count else b""

    def other_byte(self, parts, byte):
        """Within a field or a gap, before it or behind it, or in the place of a byte of it."""
        some = self.random.choice([parts.fields, parts.gaps])
        place = self.random.randrange(len(some))
        at = self.random.randint(0, len(some[place]))
        some[place] = some[place][:at] + byte + some[place][at + self.random.randrange(2):]

    def any_byte(self, parts, count):
        some = self.random.choice([parts.fields, parts.gaps])
        some[self.random.randrange(len(some))] = self.random.randbytes(count)

    def before_field(self, parts, sign):
        place = self.random.randrange(len(parts.fields))
        parts.fields[place] = sign + parts.fields[place]

    def comment(self, parts, comment):
        place = self.random.randrange(len(parts.gaps))
        parts.gaps[place] = self.random.choice([b"", parts.gaps[place]]) + comment + self.random.choice([b"", b" "])

    def no_gap(self, parts, place):
        parts.gaps[place] = b""

    def other_closing(self, parts, closing):
        parts.closing = closing

    def more_closing(self, parts, more):
        """The first byte of the pixels is then white space, and there is a byte too many."""
        parts.closing += more

    def fewer_pixels(self, parts, count):
        parts.pixels = parts.pixels[:max(len(parts.pixels) - count, 0)]

    def more_pixels(self, parts, count):
        parts.pixels += self.random.randbytes(count)

    def no_end(self, parts, count):
        """The file ends within its header."""
        parts.closing = parts.pixels = b""
        parts.fields[-1] = parts.fields[-1][:len(parts.fields[-1]) - count]
