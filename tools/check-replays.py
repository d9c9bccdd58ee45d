#!/usr/bin/env python3
"""check-replays.py SOURCE COUNT [--bin PROGRAM] [--seed N] [--steps N] [WORD]..: whether what runs do stands in the report of
`ccheck check`. SOURCE is a folder of units, or a command that prints one, with {} in it for a number, as "make-unit {}".

Takes COUNT random runs, ten of each unit at most, and looks whether each pair of place and rule that `replay` prints is
one that `check` prints of the unit. Units that are refused or too large are passed over. WORDs are further words of
each call. Prints each pair that is missing, with its unit and draws, and what was counted; ends with 1 where one is.
"""
import argparse
import collections
import glob
import os
import random
import re
import shlex
import subprocess
import sys
import tempfile

sys.path.insert(0, os.path.dirname(os.path.realpath(__file__)))
from ccheck_tools import pieces, replays, reports, search  # noqa: E402

RUNS_OF_A_UNIT = 10
PAIR = re.compile(r"^([^\n]*:\d+:\d+: [a-z]+): ", re.M)
END = re.compile(r"^end: (\w+), \d+ draws used$", re.M)


def units_of(source, folder):
    """Yields the paths of units: those of a folder, or what a command prints for 1, 2 and so on."""
    if os.path.isdir(source):
        yield from sorted(glob.glob(f"{source}/*.c"))
        return
    number = 0
    while True:
        number += 1
        words = [it.replace("{}", str(number)) for it in shlex.split(source)]
        path = f"{folder}/unit{number}.c"
        with open(path, "wb") as file:
            subprocess.run(words, stdout=file, check=True)
        yield path


def admitted(program, unit, words):
    """The pairs that `check` prints, or None where it prints no report."""
    told = subprocess.run([program, "check", unit, *words], stdout=subprocess.PIPE, check=False)
    return set(PAIR.findall(told.stdout.decode(errors="replace"))) if told.returncode in (0, 1) else None


class Count:
    """What the runs came to."""

    def __init__(self):
        self.units = self.passed_over = self.runs = self.pairs = self.missing = 0
        self.ends = collections.Counter()

    def run(self, unit, draws, text, pairs):
        self.runs += 1
        self.ends.update(END.findall(text))
        for pair in PAIR.findall(text):
            self.pairs += 1
            if pair not in pairs:
                self.missing += 1
                print(f"missing: {pair} (unit {unit}, draws {' '.join(map(str, draws))})")

    def __str__(self):
        ends = ", ".join(f"{word} {number}" for word, number in sorted(self.ends.items()))
        return (f"{self.units} units, {self.passed_over} passed over; {self.runs} runs ({ends}); "
                f"{self.pairs} pairs, {self.missing} missing")


def main():
    parser = argparse.ArgumentParser(description=__doc__.split("\n\n")[0])
    parser.add_argument("source")
    parser.add_argument("count", type=int)
    parser.add_argument("--bin")
    parser.add_argument("--seed", type=int, default=1)
    parser.add_argument("--steps", type=int, default=100000)
    asked, words = parser.parse_known_args()
    program = asked.bin or reports.find_program()
    chance, count = random.Random(asked.seed), Count()
    with tempfile.TemporaryDirectory() as folder:
        for unit in units_of(asked.source, folder):
            if count.runs >= asked.count:
                break
            pairs = admitted(program, unit, words)
            count.units += 1
            if pairs is None:
                count.passed_over += 1
                continue
            with open(unit, encoding="latin-1") as file:
                named = pieces.Pieces(file.read()).numbers
            with replays.Replays(program, unit, words, asked.steps) as runs:
                for _ in range(min(RUNS_OF_A_UNIT, asked.count - count.runs)):
                    draws = search.some_draws(chance, named)
                    text, status = runs.text_of(draws)
                    if status not in (0, 1):
                        break
                    count.run(unit, draws, text, pairs)
    print(count)
    sys.exit(1 if count.missing else 0)


if __name__ == "__main__":
    main()
