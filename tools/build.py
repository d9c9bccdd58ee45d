#!/usr/bin/env python3
"""build.py: proves the program and every crate below it, and leaves it in crates/ccheck_main/out/ccheck_main.

The proving is that of `rt ci`, in a copy that has these crates alone and no must-fail edits. The theorems on runs are
among them, since clauses of `run` follow from them; the edits, the crates of rows and the laws that `run` does not
stand on are for `make check`. What the kit keeps of a run is kept here too, so a build that was cut off goes on where
it was, and `make check` proves none of these crates again. A line is printed for each crate, with how many are left;
all that the proofs print stands in crates/ccheck_main/out/build.log.
"""
import os
import re
import shutil
import subprocess
import sys
import tempfile
import time

ROOT = os.path.realpath(os.path.join(os.path.dirname(__file__), ".."))
PROGRAM = "ccheck_main"
OUT = f"{ROOT}/crates/{PROGRAM}/out"
DONE = re.compile(r"rt: (\w+) (proved|is kept|NOT PROVED)")


def libraries_of():
    """Returns the line of each crate in crates.txt, and the crates among its libraries."""
    with open(f"{ROOT}/crates.txt", encoding="utf-8") as file:
        lines = [it.partition("#")[0].strip() for it in file]
    named = {it.partition(":")[0].split()[0]: it for it in lines if it}
    return named, {name: [it for it in line.partition(":")[2].split() if it in named] for name, line in named.items()}


def below(libraries):
    """Returns the program and every crate below it."""
    found, left = set(), [PROGRAM]
    while left:
        name = left.pop()
        if name not in found:
            found.add(name)
            left += libraries[name]
    return found


def copy_crates(room, names, lines):
    """Makes a repository of these crates alone, without their edits."""
    os.mkdir(f"{room}/.git")
    shutil.copy(f"{ROOT}/HANDLES", room)
    with open(f"{room}/crates.txt", "w", encoding="utf-8") as file:
        file.writelines(f"{line}\n" for name, line in lines.items() if name in names)
    for name in names:
        shutil.copytree(f"{ROOT}/crates/{name}", f"{room}/crates/{name}", ignore=shutil.ignore_patterns("out", "must-fail"))


def prove(room, count, log):
    """Runs `rt ci` there, tells of each crate when it is done, and returns whether all are proved."""
    begun, done = time.time(), set()
    told = {"stdout": subprocess.PIPE, "stderr": subprocess.STDOUT, "text": True, "errors": "replace"}
    with subprocess.Popen(["rt", "ci"], cwd=room, **told) as run:
        for line in run.stdout:
            log.write(line)
            found = DONE.match(line)
            if found and found[1] not in done:
                done.add(found[1])
                print(f"{time.time() - begun:6.0f} s  {count - len(done):2} left  {found[1]} {found[2]}", flush=True)
    return run.returncode == 0


def main():
    if not shutil.which("rt"):
        sys.exit("build.py: no rt on the PATH: see README.md for the kit")
    lines, libraries = libraries_of()
    names = below(libraries)
    os.makedirs(OUT, exist_ok=True)
    with tempfile.TemporaryDirectory(prefix="ccheck-build-") as room, open(f"{OUT}/build.log", "w", encoding="utf-8") as log:
        copy_crates(room, names, lines)
        if not prove(room, len(names), log):
            print(f"not built: see crates/{PROGRAM}/out/build.log")
            return 1
        shutil.copy(f"{room}/crates/{PROGRAM}/out/{PROGRAM}", OUT)
    print(f"built: crates/{PROGRAM}/out/{PROGRAM}")
    return 0


if __name__ == "__main__":
    sys.exit(main())
