"""Where lines of files are now: by `git diff`, and by hashes of their texts."""
import re
import subprocess

from ccheck_tools import baselines

HUNK = re.compile(r"@@ -(\d+)(?:,(\d+))? \+(\d+)(?:,(\d+))? @@")


class History:
    """The changes of files since a commit, by git."""

    def __init__(self, commit):
        self.commit, self.known = commit, {}

    def hunks(self, name):
        """Returns the changed pieces of a file: first line and number of lines, old and new; None where git has none."""
        if name not in self.known:
            call = ["git", "diff", "--no-color", "--no-ext-diff", "-U0", self.commit, "--", name]
            done = subprocess.run(call, stdout=subprocess.PIPE, stderr=subprocess.DEVNULL, check=False)
            text = done.stdout.decode("utf-8", "replace")
            self.known[name] = None if done.returncode else [
                tuple(int(it) if it is not None else 1 for it in found) for found in
                ((m[1], m[2], m[3], m[4]) for m in map(HUNK.match, text.split("\n")) if m)]
        return self.known[name]

    def line(self, name, number):
        """Returns where a line of the old file is now, or None where it was changed or taken away."""
        hunks = self.hunks(name)
        if hunks is None:
            return None
        shift = 0
        for old, removed, _, added in hunks:
            first = old if removed else old + 1
            if number < first:
                break
            if number < first + removed:
                return None
            shift += added - removed
        return number + shift


def last_commit(path):
    """Returns the commit that last changed a file, or None where git does not know it."""
    call = ["git", "log", "-1", "--format=%H", "--", path]
    try:
        done = subprocess.run(call, stdout=subprocess.PIPE, stderr=subprocess.DEVNULL, check=False)
    except OSError:
        return None
    return done.stdout.decode().strip() or None if done.returncode == 0 else None


def is_changed(path, commit):
    """Whether a file differs from what it was in a commit."""
    call = ["git", "diff", "--quiet", commit, "--", path]
    return subprocess.run(call, stdout=subprocess.DEVNULL, stderr=subprocess.DEVNULL, check=False).returncode == 1


def is_commit(word):
    """Whether a word names a commit."""
    try:
        done = subprocess.run(["git", "rev-parse", "--verify", "--quiet", word + "^{commit}"], stdout=subprocess.DEVNULL,
                              stderr=subprocess.DEVNULL, check=False)
    except OSError:
        return False
    return done.returncode == 0


def found_by_hash(files, name, number, marks):
    """Returns the line nearest to `number` whose text has the hash, those with the same lines next to them first."""
    lines = files.lines(name)
    same = [at for at in range(1, len(lines) + 1) if baselines.digest(lines[at - 1]) == marks[baselines.LINE]]
    context = [at for at in same if baselines.marks_of(files, name, at)[baselines.CONTEXT] == marks.get(baselines.CONTEXT)]
    return min(context or same, key=lambda at: abs(at - number), default=None)


def moved(files, history, name, number, marks):
    """Returns where the line of a result is now, or None. `marks` may be None: the baseline has no hashes then."""
    guess = history.line(name, number) if history else None
    if not marks:
        return guess if history else number
    for at in (guess, number if history is None else None):
        line = files.line(name, at) if at else None
        if line is not None and baselines.digest(line) == marks[baselines.LINE] and (
                history or baselines.marks_of(files, name, at)[baselines.CONTEXT] == marks.get(baselines.CONTEXT)):
            return at
    return found_by_hash(files, name, guess or number, marks)
