"""01 and 02 (docs/RULES.md), "Triangles": what one contains, and its outline."""

from .lines import Line, doubled_area


def sorted_yx(vertices):
    return sorted(vertices, key=lambda p: (p[1], p[0]))


def sorted_edges(p1, p2, p3):
    return [Line(*start, *end) for start, end in [(p1, p2), (p1, p3), (p2, p3)]]


class Triangle:
    def __init__(self, x1, y1, x2, y2, x3, y3):
        self.given = (x1, y1), (x2, y2), (x3, y3)
        p1, p2, p3 = sorted_yx(self.given)
        self.area = doubled_area(*self.given)
        self.edges = sorted_edges(p1, p2, p3) if self.area != 0 else [Line(*p1, *p3)]
        self.top, self.bottom = p1[1], p3[1]

    def contains(self, x, y):
        return self.area != 0 and self.has_on_one_side(x, y) or any(edge.contains(x, y) for edge in self.edges)

    def has_on_one_side(self, x, y):
        p, (v1, v2, v3) = (x, y), self.given
        areas = doubled_area(p, v1, v2), doubled_area(p, v2, v3), doubled_area(p, v3, v1)
        return min(areas) >= 0 or max(areas) <= 0

    def rows(self):
        """The first row and the number of rows."""
        return self.top, self.bottom - self.top + 1

    def span(self, y):
        columns = [x for edge in self.edges for x in edge.columns(y)]
        return (min(columns), max(columns) + 1) if columns else (0, 0)


class Outline:
    """02, T-04: the points of the three sorted edges, also at zero area."""

    def __init__(self, x1, y1, x2, y2, x3, y3):
        self.edges = sorted_edges(*sorted_yx([(x1, y1), (x2, y2), (x3, y3)]))

    def contains(self, x, y):
        return any(edge.contains(x, y) for edge in self.edges)
