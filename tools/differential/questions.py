"""Lines of docs/REPLAY.md that ask about one figure, and the places worth asking about."""

from itertools import product


def asked(word, *numbers):
    return "\t".join([word, *map(str, numbers)])


def on_line(start, end, pixels, steps, words=("length", "point", "online")):
    length, point, has_point = words
    ends = asked("", *start, *end)
    return (
        [length + ends]
        + [f"{point}{ends}\t{k}" for k in steps]
        + [f"{has_point}{ends}\t{x}\t{y}" for x, y in pixels]
    )


def on_connected(start, end, pixels, indices):
    return on_line(start, end, pixels, indices, ("tracelength", "tracepoint", "ontrace"))


def on_triangle(vertices, pixels, rows):
    three = asked("", *(coordinate for vertex in vertices for coordinate in vertex))
    return (
        ["rows" + three]
        + [f"span{three}\t{y}" for y in rows]
        + [f"inside{three}\t{x}\t{y}" for x, y in pixels]
    )


def on_circle(left, top, diameter, pixels, rows):
    circle = asked("", left, top, diameter)
    return [f"disc{circle}\t{x}\t{y}" for x, y in pixels] + [f"discspan{circle}\t{y}" for y in rows]


def last_step(start, end):
    """Of a line."""
    return max(abs(end[0] - start[0]), abs(end[1] - start[1]))


def last_index(start, end):
    """Of a connected line: a point a move, along either axis."""
    return abs(end[0] - start[0]) + abs(end[1] - start[1])


def box_of(places):
    """The corners of the smallest box that holds the places."""
    xs, ys = zip(*places)
    return list(product([min(xs), max(xs)], [min(ys), max(ys)]))

