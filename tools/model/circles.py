"""01 (docs/RULES.md), "Circles"."""

from bisect import bisect_left


class Circle:
    def __init__(self, left, top, diameter):
        self.left, self.top, self.diameter = left, top, diameter
        self.centre = 2 * left + diameter - 1, 2 * top + diameter - 1
        self.threshold = diameter * diameter - (diameter // 2 if diameter <= 4 else 0)

    def contains(self, x, y):
        across, down = 2 * x - self.centre[0], 2 * y - self.centre[1]
        return across * across + down * down < self.threshold

    def span(self, y):
        if not self.top <= y < self.top + self.diameter:
            return 0, 0
        # Up to the middle the distance falls, so the contained columns of the left half are its last.
        half = range(self.left, self.left + (self.diameter + 1) // 2)
        cut = bisect_left(half, True, key=lambda x: self.contains(x, y))
        return (self.left + cut, self.left + self.diameter - cut) if cut < len(half) else (0, 0)
