"""All kinds of cases by name: those that leave nothing out, once, and random ones, a batch a round."""

from itertools import product

from . import corners, distances, frames, grids, lights, readings
from .distances import Distances
from .figures import Figures
from .frames import Drawings
from .images import Images
from .lights import Lights
from .readings import Readings
from .refusals import Limits

FRAMES = [*product((0, 1, 2, 3, 5, 8, 9, 13, 17, 24, 33), (0, 1, 2, 5, 12, 20)), (100, 80), (320, 9), (2, 2_048), (2_048, 2)]
LONG_SIDE = 1_000


def once_by_rust(random, sizes):
    """Kinds and their batches, all of which the Rust can answer."""
    return {
        "every triangle of a grid": grids.triangles(),
        "every line of a grid": grids.lines(),
        "every connected line of a box": grids.connected_lines(),
        "every circle to d = 64": grids.circles(),
        "lines at the range's corners": corners.lines(),
        "connected lines at the range's corners": corners.connected_lines(),
        "triangles at the range's corners": corners.triangles(),
        "circles at the range's corners": corners.circles(),
        "every pixel of small frames": frames.every_pixel(random, sizes),
        "every figure on a small frame": frames.every_figure(random),
        "every gap between rows": distances.every_gap(random, sizes),
        "lit pixels at every size": lights.every_size(random, sizes, corners.LOW, corners.HIGH),
        "drawing at the range's corners": frames.corners(random, common(sizes), corners.LOW, corners.HIGH),
    }


def round_by_rust(random, sizes):
    """Kinds and what makes a batch, which the Rust can answer."""
    near = Figures(random, corners.LOW, corners.HIGH, corners.LOW, corners.HIGH)
    drawings = Drawings(random, common(sizes), corners.LOW, corners.HIGH, with_fill=False, refused=0)
    kinds = {
        "lines": lambda: near.lines(8_000),
        "connected lines": lambda: near.connected_lines(4_000),
        "triangles": lambda: near.triangles(8_000),
        "circles": lambda: near.circles(800),
        "drawing": lambda: drawings.sequences(300),
    }
    if long_sizes := wide_and_high(sizes):
        long_ones = Drawings(random, long_sizes, corners.LOW, corners.HIGH, with_fill=False, refused=0)
        kinds["drawing on wide and high frames"] = lambda: long_ones.sequences(40)
    return kinds


def common(sizes):
    return [size for size in sizes if max(size) < LONG_SIDE]


def wide_and_high(sizes):
    return [size for size in sizes if max(size) >= LONG_SIDE]


def once_by_model(random):
    """Kinds and their batches, beyond what the Rust can answer."""
    return {"every spoiled header of image files": readings.every_spoiled_header(random)}


def round_by_model(random):
    """Kinds and what makes a batch, beyond what the Rust can answer."""
    far = Figures(random, -131_072, 131_071, -(2**31), 2**31 - 1)
    drawings = Drawings(random, FRAMES, far.low, far.high, with_fill=True, refused=0.2)
    limits, rows, files, read, lit = Limits(random), Distances(random), Images(random), Readings(random), Lights(random)
    return {
        "far lines": lambda: far.lines(1_000),
        "far connected lines": lambda: far.connected_lines(1_000),
        "far triangles": lambda: far.triangles(1_000),
        "far circles": lambda: far.circles(100),
        "drawing, fills and refused calls": lambda: drawings.sequences(300),
        "row distances at their limits": lambda: rows.sequences(300),
        "image files": lambda: files.sequences(150),
        "image files read back": lambda: read.sequences(200),
        "lit pixels": lambda: lit.sequences(5),
        "questions at their limits": lambda: limits.questions(3_000),
        "calls at their limits": lambda: limits.calls(300),
        "bad lines": lambda: limits.bad_lines(3_000),
    }


def part(random, batch, count):
    """About so many lines of a batch; where lines build on a frame, all from one frame up to the next."""
    starts = [place for place, line in enumerate(batch) if line.startswith("frame\t")]
    if not starts:
        return random.sample(batch, min(count, len(batch)))
    runs = [batch[start:end] for start, end in zip(starts, [*starts[1:], len(batch)])]
    chosen = []
    for run in random.sample(runs, len(runs)):
        if len(chosen) < count:
            chosen += run
    return chosen
