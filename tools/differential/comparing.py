"""Holding one side's answers to a judge's, and the account of what was compared."""

from collections import Counter
from dataclasses import dataclass, field

from .sides import ask_together

# What the Rust answers where it has no such question.
NONE = "none"


@dataclass
class Difference(Exception):
    """The first line on which a side differs from its judge, and the lines up to it."""

    kind: str
    lines: list
    judge: str
    judged: str
    side: str
    given: str

    def __str__(self):
        return "\n".join([
            f"differs: {self.kind}, line {len(self.lines)} of its batch",
            f"  asked: {self.lines[-1]}",
            f"  {self.judge}: {self.judged}",
            f"  {self.side}: {self.given}",
        ])


@dataclass
class Account:
    """How many answers were compared, by kind and judge, to how many lines the judge had none, and how many of the Rust's answers
    a named difference had changed."""

    compared: Counter = field(default_factory=Counter)
    unanswered: Counter = field(default_factory=Counter)
    amended: Counter = field(default_factory=Counter)
    batches: int = 0

    def hold(self, kind, lines, judge, side):
        """Compares a side's answers to a batch with a judge's; every second batch ends without LF, as input may."""
        self.batches += 1
        ending = "\n" if self.batches % 2 else ""
        (judged, notes), (given, _) = ask_together("\n".join(lines) + ending, judge, side)
        place = first_difference(judged, given)
        if place is not None:
            raise Difference(kind, lines[: place + 1], judge.name, judged[place], side.name, given[place])
        self.compared[kind, judge.name] += len(judged) - judged.count(NONE)
        self.unanswered[judge.name] += judged.count(NONE)
        for note in notes.splitlines():
            name, count = note.split("\t")
            self.amended[name] += int(count)

    def table(self):
        rows = [(count, f"{kind} ({judge})") for (kind, judge), count in self.compared.items()]
        rows.append((self.compared.total(), "answers compared"))
        rows += [(count, f"lines to which {judge} has no answer") for judge, count in self.unanswered.items() if count]
        rows += [(count, f"answers of the Rust changed by a difference that 01 names: {name}") for name, count in self.amended.items()]
        return "\n".join(f"{count:>12,}  {row}" for count, row in rows)


def first_difference(judged, given):
    return next((place for place, (right, other) in enumerate(zip(judged, given)) if right != other and right != NONE), None)
