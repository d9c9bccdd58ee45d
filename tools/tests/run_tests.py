#!/usr/bin/env python3
"""run_tests.py [--quick] [--jobs N] [NAME..]: runs the tests of the tools; says what it skipped and how long it took.

--quick runs the modules that need Python and ccheck alone, with `QUICK = True` in them. NAMEs are modules, without .py.
N modules run side by side (default 2, and 1 with fewer than four processors). The ccheck that is tested is the one that
the tools find: $CCHECK first. Ends with 1 where a test fails, and with 2 where there is no ccheck; with --quick the tests
are skipped then.
"""
import argparse
import concurrent.futures
import glob
import importlib
import io
import os
import re
import subprocess
import sys
import time
import unittest

HERE = os.path.dirname(os.path.realpath(__file__))
sys.path[:0] = [HERE, os.path.dirname(HERE)]
sys.dont_write_bytecode = True

from ccheck_tools import reports  # noqa: E402

TOTAL = re.compile(r"^\w+: (\d+) tests, (\d+) failed, (\d+) skipped, ", re.M)
IS_QUICK = re.compile(r"^QUICK = True$", re.M)


def modules(is_quick, names):
    """Returns the names of the test modules to run."""
    found = sorted(os.path.basename(it)[:-3] for it in glob.glob(f"{HERE}/test_*.py"))
    unknown = set(names) - set(found)
    if unknown:
        sys.exit(f"run_tests.py: there is no module {', '.join(sorted(unknown))}")
    return [it for it in names or found if not is_quick or has_mark(it)]


def has_mark(name):
    """Whether a module has the mark of a quick one."""
    with open(f"{HERE}/{name}.py", encoding="utf-8") as file:
        return bool(IS_QUICK.search(file.read()))


def run(name):
    """Runs one module in this process; prints a line, what was skipped, and each failure. Returns the exit status."""
    begun = time.monotonic()
    suite = unittest.defaultTestLoader.loadTestsFromModule(importlib.import_module(name))
    said = io.StringIO()
    result = unittest.TextTestRunner(stream=said, verbosity=0).run(suite)
    bad = len(result.failures) + len(result.errors)
    if bad:
        print(said.getvalue())
    print(f"{name}: {result.testsRun} tests, {bad} failed, {len(result.skipped)} skipped, {time.monotonic() - begun:.1f} s")
    for test, why in result.skipped:
        print(f"    skipped: {test.id()}: {why}")
    return 1 if bad else 0


def run_apart(name):
    """Runs one module in a process of its own; returns what it printed."""
    done = subprocess.run([sys.executable, __file__, "--one", name], stdout=subprocess.PIPE, stderr=subprocess.STDOUT,
                          check=False)
    text = done.stdout.decode("utf-8", "replace")
    return text if TOTAL.search(text) else f"{text}{name}: 1 tests, 1 failed, 0 skipped, it did not run\n"


def run_all(names, jobs):
    """Runs modules side by side, and prints the totals; returns the exit status."""
    begun, totals = time.monotonic(), [0, 0, 0]
    with concurrent.futures.ThreadPoolExecutor(jobs) as pool:
        for text in pool.map(run_apart, names):
            print(text, end="", flush=True)
            totals = [sum(it) for it in zip(totals, map(int, TOTAL.search(text).groups()))]
    count, bad, skipped = totals
    print(f"{count} tests of the tools, {bad} failed, {skipped} skipped, {time.monotonic() - begun:.0f} s")
    return 1 if bad else 0


def main(words):
    """Runs the tests that the words ask for."""
    parser = argparse.ArgumentParser(description=__doc__.split(":", 1)[0])
    parser.add_argument("--quick", action="store_true")
    parser.add_argument("--one", action="store_true", help=argparse.SUPPRESS)
    parser.add_argument("--jobs", type=int, default=2 if (os.cpu_count() or 1) >= 4 else 1)
    parser.add_argument("names", nargs="*")
    asked = parser.parse_args(words)
    try:
        program = reports.find_program()
    except reports.ProgramMissing as fault:
        print(f"the tests of the tools are skipped: {fault}")
        return 0 if asked.quick else 2
    if asked.one:
        return run(asked.names[0])
    print(f"tests of the tools, over {program}", flush=True)
    return run_all(modules(asked.quick, asked.names), max(1, asked.jobs))


if __name__ == "__main__":
    sys.exit(main(sys.argv[1:]))
