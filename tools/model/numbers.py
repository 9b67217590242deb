"""01 and 02 (docs/RULES.md), "Numbers an operation may answer": each refusal by the table's words, and which one is given."""

from . import images


def first(*tests):
    """The first number that applies, in the order that the operation asks; 0 if none does."""
    return next((number for test in tests for number, applies in test.items() if applies), 0)


def description(frame):
    return {1: frame.depth not in (1, 2, 4, 8, 16, 24, 32), 2: frame.width > 2_048 or frame.height > 2_048, 14: not frame.row_bytes() <= frame.distance <= 16_384}


def buffer(frame, length):
    return {3: length < frame.size()}


def colour(frame, colour):
    # 2^depth can't be worked out for a refused depth of some thousand million.
    return {4: colour.bit_length() > frame.depth}


def coordinates(*given):
    return {5: any(not -131_072 <= coordinate <= 131_071 for coordinate in given)}


def circle(left, top, diameter):
    return {6: left + diameter > 131_072 or top + diameter > 131_072}


def step(line, k):
    return {7: k >= line.points()}


def read(frame, x, y):
    return {8: not frame.has(x, y)}


def image(frame):
    return {10: not images.has_format(frame)}


def lights(frame):
    return {10: frame.depth != 1}


def output(frame, room):
    return {9: room < images.length(frame)}


def file(frame, file):
    header = images.headed(frame.depth, file)
    if header is None:
        return {11: True}
    width, height, pixels = header
    return {13: (width, height) != (frame.width, frame.height), 12: len(pixels) < images.in_file(frame).size()}
