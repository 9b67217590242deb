"""Random lines, connected lines, triangles and circles within bounds: as many small ones as large, a third of the triangles flat or thin."""

from math import gcd

from .questions import box_of, last_index, last_step, on_circle, on_connected, on_line, on_triangle


class Figures:
    """Figures whose coordinates lie from low to high, asked about pixels from pixel_low to pixel_high."""

    def __init__(self, random, low, high, pixel_low, pixel_high):
        self.random = random
        self.low, self.high = low, high
        self.pixel_low, self.pixel_high = pixel_low, pixel_high
        self.doublings = (high - low + 1).bit_length() - 1

    def lines(self, count):
        return [line for _ in range(count) for line in self.line(on_line, last_step)]

    def connected_lines(self, count):
        return [line for _ in range(count) for line in self.line(on_connected, last_index)]

    def triangles(self, count):
        return [line for _ in range(count) for line in self.triangle()]

    def circles(self, count):
        return [line for _ in range(count) for line in self.circle()]

    def line(self, on_one, last_of):
        start, end = self.within(self.scattered(2, self.reach()))
        last = last_of(start, end)
        steps = [0, last, last + 1, *(self.random.randint(0, last) for _ in range(5))]
        return on_one(start, end, self.pixels([start, end], 8), steps)

    def triangle(self):
        vertices = self.within(self.vertices())
        return on_triangle(vertices, self.pixels(vertices, 12), self.rows(vertices, 5))

    def circle(self):
        diameter = self.random.randint(0, self.reach())
        (left, top), (right, bottom) = self.within([(0, 0), (max(diameter - 1, 0),) * 2])
        corners = box_of([(left, top), (right, bottom)])
        pixels = self.on_rim(left, top, diameter, 30) + self.pixels(corners, 30)
        return on_circle(left, top, diameter, pixels, self.rows(corners, 30))

    def reach(self):
        """An extent from 1 to that of the bounds, each doubling as likely as the next."""
        return 2 ** self.random.randint(0, self.doublings)

    def scattered(self, count, reach):
        return [(self.random.randrange(reach), self.random.randrange(reach)) for _ in range(count)]

    def vertices(self):
        shape, reach = self.random.randrange(6), self.reach()
        if shape < 3:
            return self.scattered(3, reach)
        if shape == 3:
            # Many places lie exactly on the edges.
            return [(x * (reach // 16), y * (reach // 16)) for x, y in self.scattered(3, 16)]
        times = [self.random.randrange(8) for _ in range(3)]
        across, down = (self.random.randint(-reach, reach) // 8 for _ in range(2))
        flat = [(across * n, down * n) for n in times]
        if shape == 5:
            x, y = flat[0]
            flat[0] = x + self.random.randint(-1, 1), y + self.random.randint(-1, 1)
        return flat

    def within(self, places):
        """The places, moved together to somewhere within the bounds, often against an edge."""
        across, down = (self.move(min(axis), max(axis)) for axis in zip(*places))
        return [(x + across, y + down) for x, y in places]

    def move(self, least, most):
        first, last = self.low - least, self.high - most
        return self.random.choice([first, last, self.random.randint(first, last), self.random.randint(first, last)])

    def pixels(self, corners, count):
        """Pixels by the corners, beside the lines between them, in and by their box, and anywhere."""
        picks = [self.by_corner, self.beside_edge, self.along_edge, self.by_box, self.in_box, self.anywhere, self.at_a_power]
        return [self.asked(self.random.choice(picks)(corners)) for _ in range(count)]

    def asked(self, place):
        return tuple(max(self.pixel_low, min(self.pixel_high, coordinate)) for coordinate in place)

    def by_corner(self, corners):
        return self.nudged(self.random.choice(corners))

    def beside_edge(self, corners):
        (x1, y1), (x2, y2) = self.random.sample(corners, 2)
        part = self.random.random()
        return self.nudged((round(x1 + part * (x2 - x1)), round(y1 + part * (y2 - y1))))

    def along_edge(self, corners):
        """A place on the straight line through two corners, where a doubled area is exactly 0."""
        (x1, y1), (x2, y2) = self.random.sample(corners, 2)
        steps = gcd(x2 - x1, y2 - y1) or 1
        times = self.random.randint(-steps, 2 * steps)
        return x1 + (x2 - x1) // steps * times, y1 + (y2 - y1) // steps * times

    def by_box(self, corners):
        return self.nudged(self.random.choice(box_of(corners)))

    def in_box(self, corners):
        return tuple(self.random.randint(min(axis), max(axis)) for axis in zip(*corners))

    def anywhere(self, corners):
        return self.random.randint(self.pixel_low, self.pixel_high), self.random.randint(self.pixel_low, self.pixel_high)

    def at_a_power(self, corners):
        """A power of two away from a corner, where products that wrap would be taken for small ones."""
        away = self.random.choice([-1, 1]) << self.random.randint(0, 32)
        x, y = self.random.choice(corners)
        return self.nudged(self.random.choice([(x + away, y), (x, y + away), (x + away, y + away)]))

    def nudged(self, place):
        return tuple(coordinate + self.random.randint(-1, 1) for coordinate in place)

    def on_rim(self, left, top, diameter, count):
        """Pixels where the squared distance is close to the threshold."""
        places = []
        for _ in range(count):
            y = self.random.randint(0, max(diameter - 1, 0))
            cut = (diameter - max(diameter**2 - (2 * y - diameter + 1) ** 2, 0) ** 0.5) / 2
            x = self.random.choice([cut, diameter - 1 - cut])
            places.append(self.asked(self.nudged((left + round(x), top + y))))
        return places

    def rows(self, corners, count):
        return [y for _, y in self.pixels(corners, count)]
