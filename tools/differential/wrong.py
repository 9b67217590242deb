"""Models that are wrong in one way each: the errors that look right of 01 (docs/RULES.md) and others of their kind, in image files, counts, outlines,
connected lines, files that are read back and rows with gaps too, which a run must find."""

from contextlib import contextmanager
from dataclasses import replace
from unittest.mock import patch

from model import images, numbers, replay
from model.circles import Circle
from model.connected import Connected
from model.frames import Frame
from model.lines import Line
from model.replay import Replay
from model.triangles import Outline, Triangle


class WrongModel:
    """Answers as the model would with one of its functions replaced. If a kind of cases is named, that kind must find it."""

    def __init__(self, name, owner, function, replacement, kind=None):
        self.name, self.kind = name, kind
        self.change = patch.object(owner, function, replacement)

    def ask(self, batch):
        with self.change, without_kept_figures():
            model = Replay()
            lines = batch.removesuffix("\n").encode("latin-1").split(b"\n")
            return [model.answer(line) for line in lines], ""


@contextmanager
def without_kept_figures():
    """Figures that the model keeps between questions must be made anew on both sides of the change."""
    forget_figures()
    yield
    forget_figures()


def forget_figures():
    for figures in (replay.line, replay.connected, replay.triangle, replay.circle):
        figures.cache_clear()


def models():
    return [
        WrongModel("d·d for d = 3", Circle, "__init__", with_plain_threshold(Circle.__init__)),
        WrongModel("a tie takes the minor step", Line, "moved", moved_on_ties),
        WrongModel("edges walked from their other end", Triangle, "__init__", with_edges_turned(Triangle.__init__)),
        WrongModel("no at zero area", Triangle, "contains", never_flat(Triangle.contains)),
        WrongModel("inside only, without the points of edges", Triangle, "contains", inside_only),
        WrongModel("filling clears the padding", Replay, "fill", clearing_padding(Replay.fill)),
        WrongModel("little end first always", Frame, "order", lambda self: "little"),
        WrongModel("first pixel in the low bits", Frame, "place", low_bits_first(Frame.place)),
        WrongModel("the highest refusal wins", numbers, "first", highest),
        WrongModel("a refused call draws", Replay, "drawn", drawn_all_the_same),
        WrongModel("a circle's row is not shortened on the right", Circle, "span", not_shortened(Circle.span)),
        WrongModel("a line without its last point", Line, "contains", without_last(Line.contains)),
        WrongModel("lines cut short at 8,190", Line, "__init__", cut_short(Line.__init__), "drawing at the range's corners"),
        WrongModel("no circle from 16,000 on", Circle, "contains", small_circles(Circle.contains), "drawing at the range's corners"),
        WrongModel("no points of a line beyond 4,000", Line, "__init__", near_lines(Line.__init__), "drawing"),
        WrongModel("no circle from 6,000 on", Circle, "contains", small_circles(Circle.contains, 6_000), "drawing"),
        WrongModel("columns from 1,024 on not painted", Frame, "paint", painted_to(1_024, 2_048, Frame.paint), "drawing on wide and high frames"),
        WrongModel("rows from 1,024 on not painted", Frame, "paint", painted_to(2_048, 1_024, Frame.paint), "drawing on wide and high frames"),
        WrongModel("padding kept in a file's rows", images, "row", as_it_stands(1, images.row), "image files"),
        WrongModel("the frame's byte order in a P6", images, "row", as_it_stands(24, images.row), "image files"),
        WrongModel("a room one byte too short", numbers, "output", one_short(numbers.output), "image files"),
        WrongModel("9 before 10", numbers, "first", lowest, "image files"),
        WrongModel("width and height swapped", images, "header", turned(images.header), "image files"),
        WrongModel("bytes behind the file cleared", Replay, "image", clearing(Replay.image), "image files"),
        WrongModel("inside said of the column past the last", Replay, "pixel", one_column_more(Replay.pixel), "every pixel of small frames"),
        WrongModel("an outline's corners counted twice", Replay, "outline", corners_twice(Replay.outline), "every figure on a small frame"),
        WrongModel("points in the column past the last counted", Replay, "painted", counted_beside(Replay.painted), "every figure on a small frame"),
        WrongModel("only pixels that change counted", Replay, "drawn", changes_counted(Replay.drawn), "drawing"),
        WrongModel("a count beside a refusal", Replay, "drawn", counted_all_the_same(Replay.drawn), "drawing, fills and refused calls"),
        WrongModel("padding counted as lit", Frame, "lit", padding_lit, "lit pixels at every size"),
        WrongModel("the tail counted as lit", Replay, "lit", tail_lit(Replay.lit), "lit pixels at every size"),
        WrongModel("any depth has lit pixels", numbers, "lights", lambda frame: {}, "lit pixels"),
        WrongModel("10 before 3", Replay, "lit", format_first, "lit pixels"),
        WrongModel("no frame without pixels taken", numbers, "lights", numbers.image, "lit pixels"),
        WrongModel("an outline in the order of its vertices", Outline, "__init__", in_given_order, "every figure on a small frame"),
        WrongModel("an outline's p1 to p2 walked from p2", Outline, "__init__", with_edge_turned(Outline.__init__, 0), "every figure on a small frame"),
        WrongModel("an outline's p1 to p3 walked from p3", Outline, "__init__", with_edge_turned(Outline.__init__, 1), "every figure on a small frame"),
        WrongModel("an outline's p2 to p3 walked from p3", Outline, "__init__", with_edge_turned(Outline.__init__, 2), "every figure on a small frame"),
        WrongModel("an outline without p2 to p3", Outline, "__init__", without_last_edge(Outline.__init__), "every figure on a small frame"),
        WrongModel("p1 to p2 for p1 to p3 in a flat outline", Outline, "__init__", flat_to_p2(Outline.__init__), "every figure on a small frame"),
        WrongModel("the extra point on the left", Connected, "extra", on_the_left(Connected.extra), "every connected line of a box"),
        WrongModel("an extra point after the last", Connected, "points", with_one_more(Connected.points), "every connected line of a box"),
        WrongModel("an extra point at every step", Connected, "__init__", with_one_a_step(Connected.__init__), "every connected line of a box"),
        WrongModel("the extra point after its neighbour", Connected, "point", neighbour_first(Connected.point), "every connected line of a box"),
        WrongModel("ties moved in connected lines", Connected, "__init__", by_moves(Connected.__init__, moved_on_ties), "every connected line of a box"),
        WrongModel("no index past the line's last step", numbers, "step", by_steps, "every connected line of a box"),
        WrongModel("products of 32 bits in connected lines", Connected, "__init__", by_moves(Connected.__init__, wrapped), "far connected lines"),
        WrongModel("the extra points drawn on the left", Connected, "extra", on_the_left(Connected.extra), "every figure on a small frame"),
        WrongModel("an extra point drawn after the last", Connected, "moves_after", carried_on, "every figure on a small frame"),
        WrongModel("the extra points not drawn", Connected, "contains", lambda self, x, y: self.line.contains(x, y), "every figure on a small frame"),
        WrongModel("CR not taken for white space", images, "shape", with_other(rb"\r", b""), "image files read back"),
        WrongModel("tabs not taken for white space", images, "shape", with_other(rb"\t", b""), "every spoiled header of image files"),
        WrongModel("C's white space taken, six kinds", images, "shape", with_other(rb"\r", rb"\r\v\f"), "image files read back"),
        WrongModel("one byte of white space alone taken", images, "shape", with_other(b"]+", b"]"), "image files read back"),
        WrongModel("no white space asked for behind the magic", images, "shape", with_other(b"]+", b"]*", 1), "image files read back"),
        WrongModel("a comment taken", images, "shape", with_other(images.SPACE, rb"(?:[ \t\r\n]|#[^\n]*\n)"), "image files read back"),
        WrongModel("five digits taken", images, "shape", with_other(b",4}", b",5}"), "image files read back"),
        WrongModel("three digits at most", images, "shape", with_other(b",4}", b",3}"), "every spoiled header of image files"),
        WrongModel("leading zeros refused", images, "shape", with_other(b"[0-9]{1,4}", b"(?!0[0-9])[0-9]{1,4}"), "image files read back"),
        WrongModel("a plus taken before a field", images, "shape", with_other(b"([0-9]", b"([+]?[0-9]"), "image files read back"),
        WrongModel("another byte taken behind a field", images, "shape", with_other(b"{1,4})", rb"{1,4})[^0-9 \t\r\n]?"), "image files read back"),
        WrongModel("any magic taken", images, "shape", any_magic(images.shape), "image files read back"),
        WrongModel("two bytes skipped behind the header", images, "shape", closed_by(rb"[ \t\r\n][\0-\xff]"), "image files read back"),
        WrongModel("all white space skipped behind the header", images, "shape", closed_by(rb"[ \t\r\n]+"), "image files read back"),
        WrongModel("any byte closes the header", images, "shape", closed_by(rb"[\0-\xff]"), "image files read back"),
        WrongModel("a header that the file's end closes", images, "shape", closed_by(rb"(?:[ \t\r\n]|\Z)"), "every spoiled header of image files"),
        WrongModel("a maximum of 254 taken", images, "MAXIMA", [254, 255], "image files read back"),
        WrongModel("any maximum taken", images, "MAXIMA", range(10_000), "every spoiled header of image files"),
        WrongModel("12 before 13", numbers, "file", in_order(12, 13), "image files read back"),
        WrongModel("the size before the maximum", numbers, "file", size_first(numbers.file), "image files read back"),
        WrongModel("the width alone compared", numbers, "file", compared_by(lambda width, height, frame: width == frame.width), "image files read back"),
        WrongModel("a file of the same area taken", numbers, "file", compared_by(same_area), "image files read back"),
        WrongModel("a pixel byte too few taken", numbers, "file", enough_by(lambda given, right: given >= right - 1), "image files read back"),
        WrongModel("bytes behind the pixels refused", numbers, "file", enough_by(int.__eq__), "image files read back"),
        WrongModel("10 behind 11", Replay, "load", asked_in_order(DESCRIPTION, BUFFER, FILE, FORMAT), "image files read back"),
        WrongModel("10 before 3 in reading", Replay, "load", asked_in_order(DESCRIPTION, FORMAT, BUFFER, FILE), "image files read back"),
        WrongModel("padding taken from the file", images, "read_into", byte_by_byte(1, images.read_into), "image files read back"),
        WrongModel("the file's byte order kept", images, "read_into", byte_by_byte(24, images.read_into), "image files read back"),
        WrongModel("padding cleared by reading", images, "read_into", over_zeros(images.read_into), "image files read back"),
        WrongModel("bytes behind the pixels read into the tail", images, "read_into", into_the_tail(images.read_into), "image files read back"),
        WrongModel("a short file read as far as it goes", Replay, "load", as_far_as_it_goes(Replay.load), "image files read back"),
        WrongModel("the whole file buffer read", Replay, "load", whole_buffer(Replay.load), "image files read back"),
        WrongModel("bytes put to the file buffer's begin", Replay, "bytes", to_the_begin(Replay.bytes), "every spoiled header of image files"),
        WrongModel("bytes past the file buffer's end cut off", Replay, "bytes", cut_off(Replay.bytes), "bad lines"),
        WrongModel("a distance one byte short taken", numbers, "description", with_distances(-1, 16_384), "row distances at their limits"),
        WrongModel("a distance of 16,385 taken", numbers, "description", with_distances(0, 16_385), "row distances at their limits"),
        WrongModel("a distance of 16,384 refused", numbers, "description", with_distances(0, 16_383), "row distances at their limits"),
        WrongModel("a distance without a gap refused", numbers, "description", with_distances(1, 16_384), "every gap between rows"),
        WrongModel("3 before 14", Replay, "lent", short_first(Replay.lent), "row distances at their limits"),
        WrongModel("14 before 1", numbers, "description", distance_before(1), "row distances at their limits"),
        WrongModel("14 before 2", numbers, "description", distance_before(2), "row distances at their limits"),
        WrongModel("10 before 14", Replay, "imagesize", format_before_distance, "row distances at their limits"),
        WrongModel("14 behind all others", numbers, "first", lowest, "row distances at their limits"),
        WrongModel("no 14 for the size of a frame", Replay, "frame", without_distance(Replay.frame), "row distances at their limits"),
        WrongModel("the last row's gap not needed", numbers, "buffer", but_for_the_last_gap, "row distances at their limits"),
        WrongModel("the size without its last gap", Frame, "size", to_the_last_row, "every gap between rows"),
        WrongModel("the size without gaps", Frame, "size", rows_alone, "every gap between rows"),
        WrongModel("the gaps cleared on filling", Replay, "fill", clearing_gaps(Replay.fill), "drawing, fills and refused calls"),
        WrongModel("the gaps painted", Frame, "paint", painting_gaps(Frame.paint), "every gap between rows"),
        WrongModel("the distance ignored in setting", Frame, "set", packed_by(Frame.set), "every gap between rows"),
        WrongModel("the distance ignored in reading", Frame, "read", packed_by(Frame.read), "every gap between rows"),
        WrongModel("the distance ignored in both", Frame, "place", packed_by(Frame.place), "every gap between rows"),
        WrongModel("distances in pixels", Frame, "place", in_pixels(Frame.place), "every gap between rows"),
        WrongModel("distances even", Frame, "place", even_distances(Frame.place), "every gap between rows"),
        WrongModel("gaps counted as lit", Frame, "lit", wider_lit(Frame.lit), "lit pixels at every size"),
        WrongModel("gaps written to a file", images, "written", with_gaps(images.written), "image files"),
        WrongModel("gaps counted in a file's length", images, "length", lambda frame: len(images.header(frame)) + frame.size(), "image files"),
        WrongModel("gaps looked for in a file", images, "in_file", lambda frame: replace(frame, big=True), "image files read back"),
        WrongModel("gaps cleared by reading", images, "read_into", over_cleared_gaps(images.read_into), "image files read back"),
    ]


def with_plain_threshold(init):
    def replacement(self, left, top, diameter):
        init(self, left, top, diameter)
        self.threshold = diameter * diameter

    return replacement


def moved_on_ties(self, k):
    return (2 * self.minor * k + self.major) // (2 * self.major) if self.major else 0


def with_edges_turned(init):
    def replacement(self, *vertices):
        init(self, *vertices)
        self.edges = [from_its_end(edge) for edge in self.edges]

    return replacement


def from_its_end(line):
    return Line(*line.point(line.major), line.x, line.y)


def never_flat(contains):
    return lambda self, x, y: self.area != 0 and contains(self, x, y)


def inside_only(self, x, y):
    return self.area != 0 and self.has_on_one_side(x, y)


def clearing_padding(fill):
    """Leaves the padding in the last byte of each row 0."""

    def replacement(self, colour):
        answer = fill(self, colour)
        if answer[0] == 0 and self.now.width and self.now.depth < 8:
            padding = self.now.row_bytes() * 8 - self.now.width * self.now.depth
            for last in range(self.now.row_bytes() - 1, self.now.size(), self.now.distance):
                self.buffer[last] &= -1 << padding
        return answer

    return replacement


def low_bits_first(place):
    def replacement(self, x, y):
        first, last, shift = place(self, x, y)
        return (first, last, 8 - self.depth - shift) if self.depth < 8 else (first, last, shift)

    return replacement


def highest(*tests):
    return max((number for test in tests for number, applies in test.items() if applies), default=0)


def lowest(*tests):
    return min((number for test in tests for number, applies in test.items() if applies), default=0)


def drawn_all_the_same(self, pixels, colour, *tests):
    number = numbers.first(*self.lent(), numbers.colour(self.now, colour), *tests)
    seen = pixels() if number in (0, 5, 6) else []
    self.now.paint(self.buffer, seen, colour)
    return [number, len(seen) if number == 0 else 0]


def not_shortened(span):
    def replacement(self, y):
        start, end = span(self, y)
        return (start, self.left + self.diameter) if end else (start, end)

    return replacement


def without_last(contains):
    return lambda self, x, y: contains(self, x, y) and (x, y) != self.point(self.major)


def cut_short(init):
    return lambda self, *ends: init(self, *(min(coordinate, 8_190) for coordinate in ends))


def near_lines(init):
    """Lines with an end that far away are their start alone."""

    def replacement(self, x1, y1, x2, y2):
        far = max(map(abs, (x1, y1, x2, y2))) > 4_000 + 2_048
        init(self, x1, y1, *((x1, y1) if far else (x2, y2)))

    return replacement


def small_circles(contains, least=16_000):
    return lambda self, x, y: self.diameter < least and contains(self, x, y)


def painted_to(columns, rows, paint):
    def replacement(self, buffer, pixels, colour):
        paint(self, buffer, [(x, y) for x, y in pixels if x < columns and y < rows], colour)

    return replacement


def as_it_stands(depth, row):
    """The rows of a depth copied from the frame, byte by byte."""

    def replacement(frame, buffer, y):
        return buffer[row_of(frame, y)] if frame.depth == depth else row(frame, buffer, y)

    return replacement


def row_of(frame, y):
    return slice(y * frame.distance, y * frame.distance + frame.row_bytes())


def one_short(output):
    return lambda frame, room: output(frame, room + 1)


def turned(header):
    return lambda frame: header(replace(frame, width=frame.height, height=frame.width))


def clearing(image):
    def replacement(self, room):
        answer = image(self, room)
        if answer[0] == 0:
            self.file_buffer[answer[1]:] = bytes(replay.BYTES - answer[1])
        return answer

    return replacement


def one_column_more(pixel):
    def replacement(self, x, y, colour):
        number, inside = pixel(self, x, y, colour)
        return [number, inside or number == 0 and self.now.has(x - 1, y)]

    return replacement


def corners_twice(outline):
    """Adds up the points of the three edges."""

    def replacement(self, *given):
        *vertices, _ = given
        number, _ = outline(self, *given)
        edges = Outline(*vertices).edges if number == 0 else []
        return [number, sum(len(self.now.pixels(edge.contains)) for edge in edges)]

    return replacement


def counted_beside(painted):
    def replacement(self, contains, colour, *tests):
        number, _ = painted(self, contains, colour, *tests)
        wider = replace(self.now, width=self.now.width + 1)
        return [number, len(wider.pixels(contains)) if number == 0 else 0]

    return replacement


def changes_counted(drawn):
    def replacement(self, pixels, colour, *tests):
        before = bytes(self.buffer)
        number, count = drawn(self, pixels, colour, *tests)
        changed = [place for place in pixels() if self.now.read(before, *place) != colour] if count else []
        return [number, len(changed)]

    return replacement


def counted_all_the_same(drawn):
    """Counts where nothing but the colour or the figure is refused."""

    def replacement(self, pixels, colour, *tests):
        number, count = drawn(self, pixels, colour, *tests)
        return [number, len(pixels()) if number in (4, 5, 6) else count]

    return replacement


def padding_lit(self, buffer):
    return sum(byte.bit_count() for y in range(self.height) for byte in buffer[row_of(self, y)])


def tail_lit(lit):
    def replacement(self):
        number, count = lit(self)
        tail = self.buffer[self.now.size():self.lent_bytes] if number == 0 else b""
        return [number, count + sum(byte.bit_count() for byte in tail)]

    return replacement


def format_first(self):
    number = numbers.first(numbers.description(self.now), numbers.lights(self.now), numbers.buffer(self.now, self.lent_bytes))
    return [number, self.now.lit(self.buffer) if number == 0 else 0]


def in_given_order(self, x1, y1, x2, y2, x3, y3):
    """01's outline, before T-04."""
    self.edges = Line(x1, y1, x2, y2), Line(x2, y2, x3, y3), Line(x3, y3, x1, y1)


def with_edge_turned(init, place):
    def replacement(self, *vertices):
        init(self, *vertices)
        self.edges[place] = from_its_end(self.edges[place])

    return replacement


def without_last_edge(init):
    """The others of a flat outline have all of its pixels, so that only triangles with an area show it."""

    def replacement(self, *vertices):
        init(self, *vertices)
        self.edges.pop()

    return replacement


def flat_to_p2(init):
    """Walks one edge at zero area, as a fill does, and the wrong one."""

    def replacement(self, *vertices):
        init(self, *vertices)
        if Triangle(*vertices).area == 0:
            self.edges = self.edges[:1]

    return replacement


def on_the_left(extra):
    """The other of the two pixels that share an edge with both points."""

    def replacement(self, k):
        (x1, y1), (x2, y2) = self.line.point(k), self.line.point(k + 1)
        x, y = extra(self, k)
        return x1 + x2 - x, y1 + y2 - y

    return replacement


def carried_on(self, k):
    """The line goes on past its end, and has the extra point before the next normal one."""
    return 0 <= k <= self.line.major and self.line.moved(k) < self.line.moved(k + 1)


def with_one_more(points):
    return lambda self: points(self) + carried_on(self, self.line.major)


def with_one_a_step(init):
    """Where the line does not move along its minor axis, that is its next point, which is then handed out twice."""

    def replacement(self, *ends):
        init(self, *ends)
        extra = self.extra
        self.points = lambda: 2 * self.line.major + 1
        self.index_of = lambda k: 2 * k
        self.extra = lambda k: extra(k) if self.moves_after(k) else self.line.point(k + 1)

    return replacement


def neighbour_first(point):
    """Each extra point changed over with the normal one behind it."""

    def replacement(self, index):
        def is_extra(place):
            return place >= 0 and not self.line.contains(*point(self, place))

        return point(self, index + 1 if is_extra(index) else index - 1 if is_extra(index - 1) else index)

    return replacement


def by_moves(init, moved):
    def replacement(self, *ends):
        init(self, *ends)
        self.line.moved = lambda k: moved(self.line, k)

    return replacement


def wrapped(self, k):
    return ((2 * self.minor * k + self.major - 1) % 2**32) // (2 * self.major) if self.major else 0


def by_steps(figure, k):
    return {7: k > (figure.line if isinstance(figure, Connected) else figure).major}


def with_other(old, new, count=-1, shape=images.shape):
    """Headers with some of their expression changed for another."""
    return lambda depth: shape(depth).replace(old, new, count)


def any_magic(shape):
    return lambda depth: b"P[456]" + shape(depth)[2:]


def closed_by(end, shape=images.shape):
    """Headers with another end in the place of one byte of white space."""
    return lambda depth: shape(depth).removesuffix(images.SPACE) + end


def in_order(*order, tests=numbers.file):
    def replacement(frame, file):
        given = tests(frame, file)
        return given if 11 in given else {number: given[number] for number in order}

    return replacement


def size_first(tests):
    def replacement(frame, file):
        with patch.object(images, "MAXIMA", range(10_000)):
            other_size = tests(frame, file).get(13, False)
        return {13: other_size} | tests(frame, file)

    return replacement


def same_area(width, height, frame):
    return width * height == frame.width * frame.height


def compared_by(alike, tests=numbers.file):
    """The header's size held to the frame's in another way."""

    def replacement(frame, file):
        given = tests(frame, file)
        if 13 in given:
            width, height, _ = images.headed(frame.depth, file)
            given[13] = not alike(width, height, frame)
        return given

    return replacement


def enough_by(enough, tests=numbers.file):
    """The bytes of pixels that are there held to those of the frame in another way."""

    def replacement(frame, file):
        given = tests(frame, file)
        if 12 in given:
            *_, pixels = images.headed(frame.depth, file)
            given[12] = not enough(len(pixels), images.in_file(frame).size())
        return given

    return replacement


def DESCRIPTION(self, file):
    return numbers.description(self.now)


def BUFFER(self, file):
    return numbers.buffer(self.now, self.lent_bytes)


def FORMAT(self, file):
    return numbers.image(self.now)


def FILE(self, file):
    return numbers.file(self.now, file)


def asked_in_order(*tests):
    """Reading that asks its tests in another order."""

    def replacement(self, length):
        if length > replay.BYTES:
            raise replay.BadLine
        file = self.file_buffer[:length]
        number = numbers.first(*(test(self, file) for test in tests))
        if number == 0:
            images.read_into(self.now, self.buffer, images.headed(self.now.depth, file)[-1])
        return [number]

    return replacement


def byte_by_byte(depth, read_into):
    """The frame's bytes copied from the file at a depth."""

    def replacement(frame, buffer, pixels):
        if frame.depth != depth:
            return read_into(frame, buffer, pixels)
        for y in range(frame.height):
            buffer[row_of(frame, y)] = pixels[row_of(images.in_file(frame), y)]

    return replacement


def over_zeros(read_into):
    def replacement(frame, buffer, pixels):
        for y in range(frame.height):
            buffer[row_of(frame, y)] = bytes(frame.row_bytes())
        read_into(frame, buffer, pixels)

    return replacement


def into_the_tail(read_into):
    def replacement(frame, buffer, pixels):
        read_into(frame, buffer, pixels)
        behind = pixels[images.in_file(frame).size():][:4]
        buffer[frame.size():frame.size() + len(behind)] = behind

    return replacement


def as_far_as_it_goes(load):
    def replacement(self, length):
        answer = load(self, length)
        if answer == [12]:
            images.read_into(self.now, self.buffer, images.headed(self.now.depth, self.file_buffer[:length])[-1])
        return answer

    return replacement


def whole_buffer(load):
    return lambda self, length: load(self, max(length, replay.BYTES))


def to_the_begin(put):
    return lambda self, start, given: put(self, 0, given)


def cut_off(put):
    return lambda self, start, given: put(self, start, given[:max(replay.BYTES - start, 0)])


def with_distances(more, most, tests=numbers.description):
    """Descriptions whose distance is held to so many bytes more than a row takes, and to another limit."""

    def replacement(frame):
        return tests(frame) | {14: not frame.row_bytes() + more <= frame.distance <= most}

    return replacement


def distance_before(number, tests=numbers.description):
    def replacement(frame):
        given = tests(frame)
        return {key: given[key] for key in ([14, 1, 2] if number == 1 else [1, 14, 2])}

    return replacement


def short_first(lent):
    def replacement(self):
        description, buffer = lent(self)
        return {1: description[1], 2: description[2]}, buffer, {14: description[14]}

    return replacement


def format_before_distance(self):
    description = numbers.description(self.now)
    number = numbers.first({1: description[1], 2: description[2]}, numbers.image(self.now), description)
    return replay.answered(number, 1, lambda: [images.length(self.now)])


def without_distance(frame):
    def replacement(self, *given):
        number, size = frame(self, *given)
        return [0, self.now.size() % 2**32] if number == 14 else [number, size]

    return replacement


def to_the_last_row(self):
    return self.distance * max(self.height - 1, 0) + self.row_bytes() * (self.height > 0)


def but_for_the_last_gap(frame, length):
    return {3: length < to_the_last_row(frame)}


def rows_alone(self):
    return self.row_bytes() * self.height


def gap_of(frame, y):
    return slice(y * frame.distance + frame.row_bytes(), (y + 1) * frame.distance)


def clear_gaps(frame, buffer):
    for y in range(frame.height):
        buffer[gap_of(frame, y)] = bytes(frame.distance - frame.row_bytes())


def clearing_gaps(fill):
    def replacement(self, colour):
        answer = fill(self, colour)
        if answer[0] == 0:
            clear_gaps(self.now, self.buffer)
        return answer

    return replacement


def painting_gaps(paint):
    """A row that is painted to its last column is painted on to where the next begins."""

    def replacement(self, buffer, pixels, colour):
        paint(self, buffer, pixels, colour)
        for y in (y for x, y in pixels if x == self.width - 1):
            buffer[gap_of(self, y)] = bytes([colour % 256]) * (self.distance - self.row_bytes())

    return replacement


def packed_by(method):
    """As if the rows had no gap."""
    return lambda self, *given: method(Frame.packed(self.width, self.height, self.depth, self.big), *given)


def in_pixels(place):
    return lambda self, x, y: place(replace(self, distance=self.distance * self.depth // 8), x, y)


def even_distances(place):
    return lambda self, x, y: place(replace(self, distance=self.distance + self.distance % 2), x, y)


def wider_lit(lit):
    return lambda self, buffer: lit(replace(self, width=self.distance * 8), buffer)


def with_gaps(written):
    """The rows of the file at the frame's distance, cut off where the file ends."""

    def replacement(frame, buffer):
        file = written(frame, buffer)
        rows = b"".join(images.row(frame, buffer, y) + bytes(frame.distance - frame.row_bytes()) for y in range(frame.height))
        return (images.header(frame) + rows)[:len(file)]

    return replacement


def over_cleared_gaps(read_into):
    def replacement(frame, buffer, pixels):
        clear_gaps(frame, buffer)
        read_into(frame, buffer, pixels)

    return replacement
