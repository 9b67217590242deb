"""Cases that leave nothing out on a small grid."""

from itertools import product

from .questions import last_index, on_circle, on_connected, on_line, on_triangle

AROUND = range(-1, 7)
GRID = list(product(range(6), repeat=2))
PIXELS = list(product(AROUND, repeat=2))
# Connected lines stay within a box of this side.
SIDE = 12
LARGEST_CIRCLE = 64


def triangles():
    """Every ordered triple of vertices on the grid, with every pixel and row around it; a batch for each first vertex."""
    for v1 in GRID:
        yield [line for v2, v3 in product(GRID, repeat=2) for line in on_triangle([v1, v2, v3], PIXELS, AROUND)]


def lines():
    """Every ordered pair of ends on the grid, with every step, steps past the last too, and every pixel around it."""
    yield [line for start, end in product(GRID, repeat=2) for line in on_line(start, end, PIXELS, range(8))]


def connected_lines():
    """Every ordered pair of ends in the box, with every index and two past the last; from its corners, which is every course that a line in the box can take,
    with every pixel in and around the box too. A batch for each row of starts."""
    box, around = range(SIDE), list(product(range(-1, SIDE + 1), repeat=2))
    for y in box:
        yield [line for x in box for end in product(box, repeat=2) for line in whole_connected((x, y), end, around)]


def whole_connected(start, end, around):
    pixels = around if {*start} <= {0, SIDE - 1} else []
    return on_connected(start, end, pixels, range(last_index(start, end) + 3))


def circles():
    """Every circle up to the largest, in two places, with every pixel and row around it."""
    for diameter in range(LARGEST_CIRCLE + 1):
        yield [line for left, top in [(0, 0), (-3, 5)] for line in whole_circle(left, top, diameter)]


def whole_circle(left, top, diameter):
    columns = range(left - 1, left + diameter + 1)
    rows = range(top - 1, top + diameter + 1)
    return on_circle(left, top, diameter, product(columns, rows), rows)
