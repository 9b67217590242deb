"""The programs that answer lines: our own, the Rust and the model of 01 (docs/RULES.md)."""

import subprocess
import sys
from concurrent.futures import ThreadPoolExecutor
from dataclasses import dataclass
from pathlib import Path

TOOLS = Path(__file__).resolve().parents[1]

# Seconds that a program may take for a batch.
MOST_SECONDS = 600


class CannotRun(Exception):
    """Something that the run needs is not at hand."""


class Broken(Exception):
    """A program failed, or did not answer each line with one line."""


@dataclass
class Side:
    name: str
    command: list

    def ask(self, batch):
        """The answers to a batch of lines, and what the program says on standard error."""
        try:
            done = subprocess.run(self.command, input=batch.encode("latin-1"), capture_output=True, timeout=MOST_SECONDS)
        except (OSError, subprocess.TimeoutExpired) as reason:
            raise Broken(f"{self.name} did not answer: {reason}") from reason
        complaint = done.stderr.decode("latin-1")
        if done.returncode != 0:
            raise Broken(f"{self.name} ended with status {done.returncode}: {complaint}")
        answers = done.stdout.decode("latin-1").split("\n")
        lines = batch.removesuffix("\n").count("\n") + 1
        if answers.pop() != "" or len(answers) != lines:
            raise Broken(f"{self.name} answered {len(answers)} lines where {lines} were asked")
        return answers, complaint


def ask_together(batch, *sides):
    with ThreadPoolExecutor() as pool:
        return list(pool.map(lambda side: side.ask(batch), sides))


def model():
    return Side("the model of 01", [sys.executable, str(TOOLS / "model" / "answer")])


def rust():
    """The Rust's answers within the agreed range, as 01 amends them."""
    return Side("the Rust", [oracle(), "--amended"])


def sizes():
    """The frame sizes that the Rust was compiled for."""
    listed = subprocess.run([oracle(), "--sizes"], capture_output=True, text=True, check=True).stdout
    return [tuple(map(int, line.split("\t"))) for line in listed.splitlines()]


def oracle(*options):
    """The path of the Rust oracle, built if need be."""
    built = subprocess.run([TOOLS / "oracle" / "build", *options], capture_output=True, text=True)
    if built.returncode != 0:
        raise CannotRun(built.stderr.strip())
    return built.stdout.strip()
