#!/usr/bin/env python3
"""sweep_programs.py FOLDER [--driver-option=WORD].. [--abort-violates] [--differences-only]: replays and real runs.

Each C file of FOLDER that ccheck-cc accepts is built by gcc with -O0 -fsanitize=address,undefined and run without
input. Where the program ends with 0 and without a report of a sanitizer, the same including unit is replayed over a
file of ones as draws, so that allocations succeed. The replay has to end with `ended`, and without a diagnostic.
With --abort-violates a call of abort is a division by 0 for the replay, so that `ended` means that no abort was called.
With --differences-only programs are built only where the replay differs.
Prints one line for each difference and the counts; ends with 1 where there is a difference.
"""
import argparse
import json
import os
import subprocess
import sys
import tempfile

TOOLS = os.path.dirname(os.path.dirname(os.path.realpath(__file__)))
DRIVER = os.path.join(TOOLS, "ccheck-cc")
BUILD = ["gcc", "-w", "-O0", "-fsanitize=address,undefined", "-fno-sanitize-recover=undefined"]
ABORT = ["-Dabort()=(1/0)", "-D__builtin_abort()=(1/0)"]
SECONDS = 20


def arguments():
    """Reads the command line."""
    parser = argparse.ArgumentParser(description=__doc__.split("\n\n")[0])
    parser.add_argument("folder")
    parser.add_argument("--driver-option", action="append", default=[])
    parser.add_argument("--abort-violates", action="store_true")
    parser.add_argument("--differences-only", action="store_true")
    parser.add_argument("--steps", default="1000000")
    return parser.parse_args()


def files_below(folder):
    """Returns the C files of a folder and its folders."""
    found = [os.path.join(at, name) for at, _, names in os.walk(folder) for name in names if name.endswith(".c")]
    return sorted(found)


def driver(words):
    """Runs ccheck-cc with one job. Returns its report as an object."""
    done = subprocess.run([DRIVER, "--jobs", "1", "--format", "json", *words], stdout=subprocess.PIPE, check=False)
    return json.loads(done.stdout)


def runs_clean(path, folder):
    """Says whether the program of a file can be built, ends with 0 and has no report of a sanitizer."""
    program = os.path.join(folder, "program")
    built = subprocess.run([*BUILD, path, "-o", program], stdout=subprocess.DEVNULL, stderr=subprocess.DEVNULL,
                           check=False)
    if built.returncode:
        return False
    try:
        done = subprocess.run([program], stdin=subprocess.DEVNULL, stdout=subprocess.DEVNULL, stderr=subprocess.PIPE,
                              timeout=SECONDS, check=False)
    except subprocess.TimeoutExpired:
        return False
    return done.returncode == 0 and b"Sanitizer" not in done.stderr and b"runtime error" not in done.stderr


def replays(files, words):
    """Replays units. Returns by file how its run differs from an ordinary end, "" where it does not."""
    report = driver(["--replay", "--arguments", "0", *words, *files])
    places = {}
    for it in report["diagnostics"]:
        places.setdefault(it["file"], []).append(f"{it['line']}:{it['column']} {it['rule']}")
    found = {}
    for unit in report["units"]:
        ends = {it["end"] for it in unit.get("ends", ())}
        if not unit["accepted"]:
            found[unit["unit"]] = f"not replayed: {unit['not_analysed'][0]['text']}"
        elif ends == {"ended"} and not unit["diagnostics"]:
            found[unit["unit"]] = ""
        else:
            found[unit["unit"]] = f"{' '.join(sorted(ends))}: {', '.join(places.get(unit['unit'], []))}"
    return found


def all_replays(files, words):
    """Replays units without draws, and those that ask for input over ones. Returns how they differ, and who asked."""
    told = replays(files, words)
    asked = [path for path, text in told.items() if text.startswith("draws")]
    with tempfile.NamedTemporaryFile("w", suffix=".txt") as ones:
        ones.write("1 " * 65000 + "\n")
        ones.flush()
        if asked:
            told.update(replays(asked, [*words, "--draws", ones.name]))
    return told, asked


def main():
    """Runs the comparison."""
    asked = arguments()
    files = files_below(asked.folder)
    accepted = [it["unit"] for it in driver([*asked.driver_option, *files])["units"] if it["accepted"]]
    print(f"{len(files)} files, {len(accepted)} accepted, {100 * len(accepted) / len(files):.1f} %", flush=True)
    words = ["--steps", asked.steps, *asked.driver_option, *(ABORT if asked.abort_violates else [])]
    told, inputs = all_replays(accepted, words)
    looked_at = [it for it in accepted if told[it] or not asked.differences_only]
    clean = []
    with tempfile.TemporaryDirectory() as folder:
        for path in looked_at:
            if runs_clean(path, folder):
                clean.append(path)
                if told[path]:
                    print(f"{path}: {told[path]}", flush=True)
    different = [it for it in clean if told[it]]
    print(f"{len(looked_at)} programs looked at, {len(clean)} of them end with 0 and without a report, "
          f"{len(set(clean) & set(inputs))} of these ask for input; {len(different)} replays differ")
    sys.exit(1 if different else 0)


if __name__ == "__main__":
    main()
