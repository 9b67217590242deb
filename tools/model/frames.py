"""01 (docs/RULES.md), "Packed frames", and painting as demand 3 has it: every pixel of the frame that the figure contains is set. 02, "How much was seen": how
many those are, and how many pixels of one bit are lit. 02, "Rows that start on a boundary": a row begins so many bytes behind the one before it."""

from dataclasses import dataclass


@dataclass(frozen=True)
class Frame:
    width: int
    height: int
    depth: int
    big: bool
    distance: int

    @classmethod
    def packed(cls, width, height, depth, big):
        """A frame without a gap between its rows. A distance that 32 bits do not hold is 0: the depth or the width is refused then."""
        distance = row_bytes(width, depth)
        return cls(width, height, depth, big, distance if distance < 2**32 else 0)

    def row_bytes(self):
        return row_bytes(self.width, self.depth)

    def size(self):
        """The bytes that it takes, the gap behind its last row too."""
        return self.distance * self.height

    def has(self, x, y):
        return 0 <= x < self.width and 0 <= y < self.height

    def set(self, buffer, x, y, colour):
        first, last, shift = self.place(x, y)
        old = int.from_bytes(buffer[first:last], self.order())
        own_bits = (2**self.depth - 1) << shift
        buffer[first:last] = (old & ~own_bits | colour << shift).to_bytes(last - first, self.order())

    def read(self, buffer, x, y):
        first, last, shift = self.place(x, y)
        return int.from_bytes(buffer[first:last], self.order()) >> shift & 2**self.depth - 1

    def place(self, x, y):
        """The bytes from first up to last that hold a pixel, and how many bits stand below it in them."""
        first = y * self.distance + x * self.depth // 8
        if self.depth >= 8:
            return first, first + self.depth // 8, 0
        return first, first + 1, 8 - self.depth - x * self.depth % 8

    def order(self):
        return "big" if self.big else "little"

    def pixels(self, contains):
        """The pixels of the frame that a figure contains, each once."""
        return [(x, y) for y in range(self.height) for x in range(self.width) if contains(x, y)]

    def paint(self, buffer, pixels, colour):
        for x, y in pixels:
            self.set(buffer, x, y, colour)

    def lit(self, buffer):
        """How many pixels of one bit are 1, each read by itself."""
        return sum(self.read(buffer, x, y) for x, y in self.pixels(everywhere))


def row_bytes(width, depth):
    return (width * depth + 7) // 8


def everywhere(x, y):
    return True
