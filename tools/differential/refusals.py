"""Lines at the limits of every number: what is refused and what is not, which refusal wins, and what is a bad line."""

from model.frames import Frame, row_bytes
from model.replay import BYTES, FIELDS

from .frames import DEPTHS, described
from .questions import asked, last_index, last_step

COORDINATES = [0, 1, -1, 131_071, 131_072, -131_072, -131_073, 2**31 - 1, -(2**31)]
SIDES = [0, 1, 2, 3, 2_047, 2_048, 2_049, 2**32 - 1]
OTHER_DEPTHS = [0, 3, 5, 12, 33, 64, 2**32 - 1]
DIAMETERS = [0, 1, 2, 131_071, 131_072, 131_073, 262_143, 262_144, 262_145, 2**31, 2**32 - 1]
NUMBERS_NOT_TAKEN = ["", "-", "+1", " 1", "1 ", "1.0", "0x1", "--1", "12345678901", "4294967296", "-2147483649", "1\r", "é"]
NUMBERS_TAKEN = ["-0", "0000000001", "-000000001", "2147483647", "-2147483648", "4294967295", "2147483648", "-1"]
BYTES_NOT_TAKEN = ["0", "000", "0A", "0g", "0x00", "00 ", "é0", "ab" * 49]
BYTES_TAKEN = ["0f", "ab" * 48]
WORDS = {word: len(numbers) for word, numbers in FIELDS.items()}
DRAWING = ["pixel", "fill", "line", "trace", "triangle", "outline", "circle"]
QUESTIONS = ["length", "point", "online", "tracelength", "tracepoint", "ontrace", "inside", "span", "rows", "disc", "discspan"]
# The last point that a figure has, and the last that any can have.
LAST_POINTS = {"point": (last_step, 262_143), "tracepoint": (last_index, 524_286)}


class Limits:
    """Lines whose numbers stand at, and one past, what an operation takes."""

    def __init__(self, random):
        self.random = random

    def questions(self, count):
        return [self.question() for _ in range(count)]

    def question(self):
        word = self.random.choice(QUESTIONS)
        if word.startswith("disc"):
            rest = [self.coordinate() for _ in range(WORDS[word] - 3)]
            return asked(word, self.coordinate(), self.coordinate(), self.diameter(), *rest)
        numbers = [self.coordinate() for _ in range(WORDS[word])]
        if word in LAST_POINTS:
            last_of, most = LAST_POINTS[word]
            last = last_of(numbers[:2], numbers[2:4])
            numbers[-1] = min(self.random.choice([0, 1, last, last + 1, most, most + 1, 2**32 - 1]), 2**32 - 1)
        return asked(word, *numbers)

    def calls(self, count):
        """Frames at and past their limits, each with calls that are refused for several reasons at once, and the bytes after."""
        return [line for _ in range(count) for line in self.frame()]

    def frame(self):
        width, height = self.random.choice(SIDES), self.random.choice(SIDES)
        depth = self.random.choice(DEPTHS + DEPTHS + OTHER_DEPTHS)
        frame = Frame(width, height, depth, self.random.random() < 0.5, self.distance(row_bytes(width, depth)))
        length = max(0, min(frame.size() + self.random.choice([-1, 0, 0, 1, 100]), BYTES))
        lines = [described(frame, length), asked("preset", 165), asked("lit")]
        for _ in range(6):
            lines += [self.call(depth), asked("dump", 0, min(frame.size() + 4, 256)), asked("read", self.near(width), self.near(height))]
        return lines

    def distance(self, least):
        """Mostly what a row takes."""
        return max(0, min(self.random.choice([least] * 9 + [least - 1, least + 1, 16_384, 16_385]), 2**32 - 1))

    def call(self, depth):
        word = self.random.choice(DRAWING)
        power = 2 ** min(depth, 32)
        colour = self.random.choice([0, power - 1, power, 2**32 - 1]) % 2**32
        if word == "circle":
            return asked(word, self.coordinate(), self.coordinate(), self.diameter(), colour)
        return asked(word, *(self.coordinate() for _ in range(WORDS[word] - 1)), colour)

    def coordinate(self):
        usual = self.random.randint(-131_072, 131_071)
        return self.random.choice([usual, usual, usual, self.random.choice(COORDINATES)])

    def diameter(self):
        return self.random.choice([*DIAMETERS, self.random.randrange(131_072)])

    def near(self, side):
        return self.random.choice([-1, 0, min(side - 1, 2**31 - 1), min(side, 2**31 - 1), -(2**31)])

    def bad_lines(self, count):
        # The last is a good one: an empty line at the end of input would be none.
        return [self.bad_line() for _ in range(count)] + [asked("length", 0, 0, 3, 1)]

    def bad_line(self):
        """A line with one thing about it that may make it bad."""
        word, kinds = self.random.choice(list(FIELDS.items()))
        fields = [self.random.randbytes(self.random.randint(1, 4)).hex() if kind == "h" else str(self.random.randrange(9)) for kind in kinds]
        changes = [self.other_word, self.other_field, self.other_first_number, self.other_last_number, self.other_fields, self.other_ending]
        return self.random.choice(changes)(word, fields)

    def other_word(self, word, fields):
        words = ["", "Line", "lines", "spanx", "circl\0", word + " ", " " + word, word.upper()]
        return asked(self.random.choice(words), *fields)

    def other_field(self, word, fields):
        fields = fields or [""]
        fields[self.random.randrange(len(fields))] = self.random.choice(NUMBERS_NOT_TAKEN + NUMBERS_TAKEN + BYTES_NOT_TAKEN + BYTES_TAKEN)
        return asked(word, *fields)

    def other_first_number(self, word, fields):
        return asked(word, self.random.choice([255, 256, 65_535, 65_536, 65_537, 2**32 - 1]), *fields[1:])

    def other_last_number(self, word, fields):
        return asked(word, *fields[:-1], self.random.choice([2, 255, 256, 4_096, 4_097, 65_536, 65_537]))

    def other_fields(self, word, fields):
        return self.random.choice([asked(word, *fields[:-1]), asked(word, *fields, 1), asked(word, *fields, ""), ""])

    def other_ending(self, word, fields):
        return asked(word, *fields) + self.random.choice([" ", "\t", "\r", "0" * self.random.randint(1, 130)])
