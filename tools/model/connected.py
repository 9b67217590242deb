"""02 (docs/RULES.md), "Connected lines": the points of a line, and an extra one at every minor move, on the right side."""

from bisect import bisect_right

from .lines import Line, doubled_area


class Connected:
    def __init__(self, *ends):
        self.line = Line(*ends)

    def points(self):
        """How many points it has: none comes after the last normal one."""
        return self.line.major + self.line.minor + 1

    def point(self, index):
        """A normal point, or the extra one after it."""
        k = bisect_right(range(self.line.major + 1), index, key=self.index_of) - 1
        return self.line.point(k) if self.index_of(k) == index else self.extra(k)

    def index_of(self, k):
        """Where the normal point of step k stands: k normal ones and m extra ones come before it."""
        return k + self.line.moved(k)

    def moves_after(self, k):
        """Whether there is an extra point between those of the steps k and k + 1."""
        return 0 <= k < self.line.major and self.line.moved(k) < self.line.moved(k + 1)

    def extra(self, k):
        """Of the two pixels that share an edge with both points, the one on the right of the line."""
        (x1, y1), (x2, y2) = self.line.point(k), self.line.point(k + 1)
        in_column, in_row = (x1, y2), (x2, y1)
        return in_column if doubled_area(self.line.point(0), self.line.point(self.line.major), in_column) > 0 else in_row

    def contains(self, x, y):
        """Whether a pixel is one of the points: its major coordinate names a step, and an extra point can only come right before it or right after it."""
        k = self.line.step_of(x, y)
        return self.line.contains(x, y) or any(self.extra(step) == (x, y) for step in (k - 1, k) if self.moves_after(step))
