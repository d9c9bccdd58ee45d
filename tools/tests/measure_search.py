#!/usr/bin/env python3
"""measure_search.py [--tries N] [--tool FILE] [NAME..]: what show-me finds in the units of faulty/, and how long it takes.

Each of these units has one line with a diagnostic that is real: the comment `real: RULE` is on it. Prints a line for
each unit, with how many seconds it took and the draws, and then how many were found. --tool measures another show-me.
Runs one search at a time: some minutes.
"""
import argparse
import glob
import os
import subprocess
import sys
import time

HERE = os.path.dirname(os.path.realpath(__file__))
sys.path[:0] = [HERE, os.path.dirname(HERE)]

from ccheck_tools import reports  # noqa: E402
from test_search import wanted_in  # noqa: E402


def measured(tool, path, tries):
    """Returns the seconds of one search, and the draws that it found, or None."""
    with open(path, encoding="utf-8") as file:
        line, rule, entry = wanted_in(file.read())
    words = [tool, path, str(line), "--tag", rule, "--tries", str(tries), "--bin", reports.find_program(), "--entry", entry]
    begun = time.monotonic()
    done = subprocess.run(words, stdout=subprocess.PIPE, stderr=subprocess.DEVNULL, check=False)
    return time.monotonic() - begun, done.stdout.decode().strip() if done.returncode == 0 else None


def main(words):
    """Measures."""
    parser = argparse.ArgumentParser(description=__doc__.split("\n\n", maxsplit=1)[0])
    parser.add_argument("--tries", type=int, default=3000)
    parser.add_argument("--tool", default=os.path.join(os.path.dirname(HERE), "show-me"))
    parser.add_argument("names", nargs="*")
    asked = parser.parse_args(words)
    paths = sorted(f"{HERE}/faulty/{it}.c" for it in asked.names) or sorted(glob.glob(f"{HERE}/faulty/*.c"))
    count, seconds = 0, []
    for path in paths:
        taken, draws = measured(asked.tool, path, asked.tries)
        count += draws is not None
        seconds.append(taken)
        shown = "no run" if draws is None else draws if len(draws) < 60 else draws[:57] + ".."
        print(f"{os.path.basename(path):22} {taken:6.1f} s  {shown}", flush=True)
    print(f"{count} of {len(paths)} found, {sum(seconds):.0f} s, median {sorted(seconds)[len(seconds) // 2]:.1f} s")
    return 0


if __name__ == "__main__":
    sys.exit(main(sys.argv[1:]))
