"""01 (docs/RULES.md), "Lines"; and on which side of one a place lies."""

from bisect import bisect_left, bisect_right


def doubled_area(a, b, c):
    """Twice the signed area: above 0 if c lies on the right of the way from a to b, rows being counted down."""
    return (b[0] - a[0]) * (c[1] - a[1]) - (b[1] - a[1]) * (c[0] - a[0])


class Line:
    def __init__(self, x1, y1, x2, y2):
        a, b = abs(x2 - x1), abs(y2 - y1)
        self.x, self.y = x1, y1
        self.towards_x = 1 if x2 >= x1 else -1
        self.towards_y = 1 if y2 >= y1 else -1
        self.y_is_major = b >= a
        self.major, self.minor = max(a, b), min(a, b)

    def points(self):
        """How many points the line has."""
        return self.major + 1

    def moved(self, k):
        """m: how far the point at step k has moved along the minor axis."""
        if self.major == 0:
            return 0
        return (2 * self.minor * k + self.major - 1) // (2 * self.major)

    def point(self, k):
        m = self.moved(k)
        if self.y_is_major:
            return self.x + self.towards_x * m, self.y + self.towards_y * k
        return self.x + self.towards_x * k, self.y + self.towards_y * m

    def step_of(self, x, y):
        """The step that a pixel's major coordinate names."""
        return (y - self.y) * self.towards_y if self.y_is_major else (x - self.x) * self.towards_x

    def contains(self, x, y):
        """Whether a pixel is a point of the line: only the step that its major coordinate names can have it."""
        k = self.step_of(x, y)
        return 0 <= k <= self.major and self.point(k) == (x, y)

    def columns(self, y):
        """The x of every point on row y."""
        return [self.point(k)[0] for k in self.ends_on_row(y)]

    def ends_on_row(self, y):
        """The first and the last step whose point is on row y; the steps between are there too, as no coordinate turns back."""
        down = (y - self.y) * self.towards_y
        steps = range(self.major + 1)
        along = (lambda k: k) if self.y_is_major else self.moved
        first = bisect_left(steps, down, key=along)
        last = bisect_right(steps, down, key=along) - 1
        return [first, last] if first <= last else []
