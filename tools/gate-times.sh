#!/usr/bin/env python3
"""gate-times.sh OUT [COMMAND ..]: runs the gate (`rt ci`, or another command) and writes the processor minutes of each crate to OUT.

At the top of the repository. Every two seconds the processor time of each `rattle` below the command is read from /proc,
with that of what it has waited for; the last reading counts. OUT gets a Markdown table: a crate's proof, the proof of
its tests, its must-fail edits, and their sum; then what is spent beside them (rt itself, and programs and tests that
run), and the whole. OUT is written anew each minute. The status is the command's.
"""
import os
import subprocess
import sys
import time

TICKS = os.sysconf("SC_CLK_TCK")
KINDS = ("proof", "tests", "edits")


def read(path):
    with open(path, "rb") as file:
        return file.read()


def stat_of(pid):
    """Returns a process's parent, its start, and its processor seconds: its own, and those of children that it has waited for."""
    fields = read(f"/proc/{pid}/stat").rpartition(b")")[2].split()
    own, waited = int(fields[11]) + int(fields[12]), int(fields[13]) + int(fields[14])
    return int(fields[1]), fields[19], own / TICKS, waited / TICKS


def work_of(pid):
    """Returns the crate and the kind of the work of a `rattle`, or None."""
    words = [it.decode(errors="replace") for it in read(f"/proc/{pid}/cmdline").split(b"\0")]
    if os.path.basename(words[0]) != "rattle" or "--crate-name" not in words:
        return None
    crate = words[words.index("--crate-name") + 1]
    if os.path.basename(os.readlink(f"/proc/{pid}/cwd")).startswith("rt-edit-"):
        return crate, "edits"
    return crate, "tests" if "--test" in words else "proof"


def processes():
    """Returns the parent, start and seconds of each process that is there."""
    found = {}
    for pid in filter(str.isdigit, os.listdir("/proc")):
        try:
            found[int(pid)] = stat_of(pid)
        except (OSError, IndexError):
            pass
    return found


def is_below(pid, top, found):
    while pid in found and pid != top:
        pid = found[pid][0]
    return pid == top


def sample(top, seconds):
    """Notes the seconds of each rattle below `top`, by its pid, start, crate and kind, and those of the command and of all that it has waited for."""
    found = processes()
    for pid, (_, start, own, waited) in found.items():
        if not is_below(pid, top, found):
            continue
        try:
            work = (".", "rt") if pid == top else work_of(pid)
        except OSError:
            continue
        if work:
            seconds[pid, start, *work] = own if pid == top else own + waited


def table(seconds, beside, begun):
    sums = {}
    for (_, _, crate, kind), spent in seconds.items():
        row = sums.setdefault(crate, dict.fromkeys((*KINDS, "rt"), 0.0))
        row[kind] += spent / 60
    rt = sums.pop(".", {}).get("rt", 0.0)
    whole = {kind: sum(row[kind] for row in sums.values()) for kind in KINDS}
    lines = ["| crate | proof | tests | edits | sum |", "|---|---:|---:|---:|---:|"]
    for crate, row in sorted(sums.items(), key=lambda it: -sum(it[1].values())):
        numbers = [*(row[kind] for kind in KINDS), sum(row.values())]
        lines.append(f"| {crate} | " + " | ".join(f"{it:.1f}" for it in numbers) + " |")
    numbers = [*(whole[kind] for kind in KINDS), sum(whole.values())]
    lines.append("| all | " + " | ".join(f"{it:.1f}" for it in numbers) + " |")
    total = max(beside / 60, sum(whole.values()) + rt)
    lines += ["", f"Processor minutes in all: {total:.1f}, of which rt itself {rt:.1f}."]
    lines += [f"Minutes by the clock: {(time.time() - begun) / 60:.1f}, on {os.cpu_count()} processors.", ""]
    return "\n".join(lines)


def main():
    if len(sys.argv) < 2:
        sys.exit(__doc__)
    out, command = sys.argv[1], sys.argv[2:] or ["rt", "ci"]
    begun, seconds, written, beside = time.time(), {}, 0.0, 0.0
    running = subprocess.Popen(command)
    while running.poll() is None:
        sample(running.pid, seconds)
        if time.time() - written > 60:
            written = time.time()
            with open(out, "w", encoding="utf-8") as file:
                file.write(table(seconds, beside, begun))
        time.sleep(2)
    spent = os.times()
    beside = spent.children_user + spent.children_system
    with open(out, "w", encoding="utf-8") as file:
        file.write(table(seconds, beside, begun))
    return running.returncode


sys.exit(main())
