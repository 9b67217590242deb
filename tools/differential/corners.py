"""Cases at the ends of the range in which the Rust is to agree: its corners, its edges and one past each edge of a box."""

from itertools import product

from .questions import box_of, last_index, last_step, on_circle, on_connected, on_line, on_triangle

LOW, HIGH = -8_192, 8_191
DIAMETERS = [1, 2, 3, 4, 5, 100, 8_191, 8_192, 8_193, 16_383, 16_384]


def lines():
    yield from between_places(on_line, last_step)


def connected_lines():
    yield from between_places(on_connected, last_index)


def between_places(on_one, last_of):
    places = list(product([LOW, LOW + 1, 0, HIGH], repeat=2))
    for start in places:
        batch = []
        for end in places:
            last = last_of(start, end)
            batch += on_one(start, end, beside([start, end]), [0, 1, last // 2, last, last + 1])
        yield batch


def triangles():
    places = list(product([LOW, -1, HIGH], repeat=2))
    for v1 in places:
        batch = []
        for v2, v3 in product(places, repeat=2):
            box = box_of([v1, v2, v3])
            batch += on_triangle([v1, v2, v3], beside([*box, v1, v2, v3]), rows(beside(box)))
        yield batch


def circles():
    """Circles against the edges, up to the one whose box is the whole range."""
    for diameter in DIAMETERS:
        last = HIGH + 1 - diameter
        for left, top in product(sorted({LOW, last, (LOW + last) // 2}), repeat=2):
            xs, ys = ([start, start + diameter // 2, start + diameter - 1] for start in (left, top))
            places = beside(product(xs, ys))
            yield on_circle(left, top, diameter, places, rows(places))


def beside(places):
    """The places and their neighbours that lie in the range."""
    near = {(x + across, y + down) for x, y in places for across, down in product((-1, 0, 1), repeat=2)}
    return sorted(place for place in near if LOW <= min(place) and max(place) <= HIGH)


def rows(places):
    return sorted({y for _, y in places})
