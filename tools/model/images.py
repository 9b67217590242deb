"""02 (docs/RULES.md), "Image files" and "Image files read back": a frame as a Netpbm file, and a Netpbm file into a frame."""

import re

from .frames import Frame, everywhere

MAGIC = {1: "P4", 8: "P5", 24: "P6"}
# What may stand between the fields of a header that is read, and a field: one to four digits.
SPACE, FIELD = rb"[ \t\r\n]", rb"([0-9]{1,4})"
MAXIMA = [255]


def has_format(frame):
    return frame.depth in MAGIC and frame.width > 0 and frame.height > 0


def header(frame):
    maximum = "" if frame.depth == 1 else "255\n"
    return f"{MAGIC.get(frame.depth, 'P?')}\n{frame.width} {frame.height}\n{maximum}".encode()


def row(frame, buffer, y):
    """A row of the file, from the colours of its pixels alone: eight to a byte, or red, green, blue of each."""
    colours = [frame.read(buffer, x, y) for x in range(frame.width)]
    if frame.depth > 1:
        return b"".join(colour.to_bytes(frame.depth // 8, "big") for colour in colours)
    bits = "".join(map(str, colours))
    return bytes(int(bits[start:start + 8].ljust(8, "0"), 2) for start in range(0, frame.width, 8))


def written(frame, buffer):
    return header(frame) + b"".join(row(frame, buffer, y) for y in range(frame.height))


def in_file(frame):
    """The frame as which a file keeps its picture: big end first, and no gap between the rows."""
    return Frame.packed(frame.width, frame.height, frame.depth, True)


def length(frame):
    return len(header(frame)) + in_file(frame).size()


def picture(file):
    """The frame that a file shows, its big end first, and the colours of its pixels, row by row; ValueError if it is no such file."""
    for depth, magic in MAGIC.items():
        maximum = "" if depth == 1 else "255\n"
        taken = re.match(f"{magic}\n([1-9][0-9]*) ([1-9][0-9]*)\n{maximum}".encode(), file)
        if taken:
            frame, pixels = Frame.packed(*map(int, taken.groups()), depth, True), file[taken.end():]
            if len(pixels) != frame.size():
                raise ValueError(f"{len(pixels)} bytes of pixels where {frame.size()} are right")
            return frame, [frame.read(pixels, x, y) for y in range(frame.height) for x in range(frame.width)]
    raise ValueError(f"no header: {file[:16]}")


def shape(depth):
    """Every header that is taken for the depth, as a regular expression: the magic, white space before each field, and one byte of it more."""
    fields = 2 if depth == 1 else 3
    return MAGIC[depth].encode() + (SPACE + b"+" + FIELD) * fields + SPACE


def headed(depth, file):
    """Width and height as the header says them, and the bytes behind it; none if it is bad."""
    taken = depth in MAGIC and re.match(shape(depth), file)
    if not taken:
        return None
    width, height, *maximum = map(int, taken.groups())
    return (width, height, file[taken.end():]) if all(number in MAXIMA for number in maximum) else None


def read_into(frame, buffer, pixels):
    """Sets every pixel of the frame to the colour that it has in the file's rows."""
    rows = in_file(frame)
    for x, y in frame.pixels(everywhere):
        frame.set(buffer, x, y, rows.read(pixels, x, y))
