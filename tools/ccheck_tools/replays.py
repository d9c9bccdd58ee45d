"""Runs of a unit: calls of `ccheck replay`, and what they print."""
import os
import tempfile
from typing import NamedTuple

from . import reports


class Pair(NamedTuple):
    """A place and the rule that is broken there."""
    file: str
    line: int
    column: int
    rule: str

    def __str__(self):
        return f"{self.file}:{self.line}:{self.column}: {self.rule}"


class Outcome(NamedTuple):
    """What one run printed: its pairs, the word of its end, and how many draws it used."""
    pairs: frozenset
    end: str
    used: int


class NoRun(Exception):
    """The program takes no run of the unit: its text and its exit status."""

    def __init__(self, text, status):
        super().__init__(text)
        self.text, self.status = text, status


def pairs_of(report):
    """Returns the pairs of a report."""
    return frozenset(Pair(it.file, it.line, it.column, it.rule) for it in report.diagnostics)


class Replays:
    """Takes runs of one unit, and counts them. `words` are further words of each call."""

    def __init__(self, program, unit, words=(), steps=None):
        self.program, self.unit, self.count = program, unit, 0
        self.words = [*words, *(["--steps", str(steps)] if steps is not None else [])]
        handle, self.path = tempfile.mkstemp(prefix="ccheck-draws-", suffix=".txt")
        os.close(handle)

    def close(self):
        """Removes the file of draws."""
        os.unlink(self.path)

    def __enter__(self):
        return self

    def __exit__(self, *_):
        self.close()

    def text_of(self, draws):
        """Returns what the program prints of the run over these draws, and its status."""
        self.count += 1
        with open(self.path, "w", encoding="ascii") as file:
            file.write(" ".join(map(str, draws)) + "\n")
        status, text = reports.call_program(["replay", self.unit, *self.words, "--draws", self.path], self.program)
        return text, status

    def run(self, draws):
        """Returns the outcome of the run over these draws; raises NoRun where the program takes none.

        A run whose objects get too large has the end "limit".
        """
        text, status = self.text_of(draws)
        if status == reports.LIMIT and draws:
            return Outcome(frozenset(), "limit", len(draws))
        if status not in (reports.CLEAN, reports.FOUND):
            raise NoRun(text, status)
        report = reports.read_report(text)
        return Outcome(pairs_of(report), report.end, report.used)
