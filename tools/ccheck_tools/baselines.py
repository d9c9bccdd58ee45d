"""Baselines: SARIF reports that are kept, with a hash of the line of each result, by which the result is found again."""
import hashlib
import json
import os
import tempfile

from ccheck_tools import reports

MOST = 1048576             # the bytes that `ccheck gate` reads
LINE, CONTEXT, INDENT = "ccheckLine/v1", "ccheckContext/v1", "ccheckIndent"
SCHEMA = "https://json.schemastore.org/sarif-2.1.0.json"


class BaselineFault(Exception):
    """A baseline that cannot be read or written; the message says why."""


class Files:
    """The lines of source files, read once."""

    def __init__(self):
        self.read = {}

    def lines(self, name):
        """Returns the lines of a file, none where it cannot be read."""
        if name not in self.read:
            try:
                with open(name, "rb") as file:
                    self.read[name] = [it.rstrip(b"\r") for it in file.read().split(b"\n")]
            except (OSError, ValueError):
                self.read[name] = []
        return self.read[name]

    def line(self, name, number):
        """Returns a line, or None where the file has no such line."""
        lines = self.lines(name)
        return lines[number - 1] if 0 < number <= len(lines) else None


def digest(*lines):
    """Returns a short hash of lines; spaces at their ends do not count."""
    return hashlib.sha256(b"\n".join((it or b"").strip() for it in lines)).hexdigest()[:16]


def indent_of(line):
    """Returns how many bytes of white space begin a line."""
    return len(line) - len(line.lstrip())


def marks_of(files, name, number):
    """Returns the hashes of a line and of it with the two next to it, and its indent; None where it is not there."""
    line = files.line(name, number)
    if line is None:
        return None
    around = (files.line(name, number - 1), line, files.line(name, number + 1))
    return {LINE: digest(line), CONTEXT: digest(*around), INDENT: indent_of(line)}


def result_of(files, one):
    """Returns a diagnostic as a SARIF result with its hashes."""
    place = {"artifactLocation": {"uri": reports.uri_of(one.file)},
             "region": {"startLine": one.line, "startColumn": one.column}}
    value = {"ruleId": one.rule, "message": {"text": one.text}, "locations": [{"physicalLocation": place}]}
    marks = marks_of(files, one.file, one.line)
    if marks:
        value["partialFingerprints"] = {LINE: marks[LINE], CONTEXT: marks[CONTEXT]}
        value["properties"] = {INDENT: marks[INDENT]}
    return value


def baseline_of(files, diagnostics):
    """Returns a baseline of diagnostics, each once."""
    results = [result_of(files, it) for it in sorted(set(diagnostics))]
    run = {"tool": {"driver": {"name": "ccheck"}}, "results": results}
    return {"$schema": SCHEMA, "version": "2.1.0", "runs": [run]}


def read_baseline(path):
    """Reads a baseline; raises BaselineFault where the file is not one that `ccheck gate` takes."""
    try:
        with open(path, encoding="utf-8") as file:
            value = json.load(file)
    except OSError as fault:
        raise BaselineFault(f"{path}: {fault.strerror}") from fault
    except ValueError as fault:
        raise BaselineFault(f"{path}: this is not JSON: {fault}") from fault
    if not isinstance(value, dict) or value.get("version") != "2.1.0" or not isinstance(value.get("runs"), list):
        raise BaselineFault(f"{path}: this is not a report in SARIF 2.1.0")
    return value


def results_of(value):
    """Returns the lists of results of a baseline, one for each run that has a list."""
    return [it["results"] for it in value["runs"] if isinstance(it, dict) and isinstance(it.get("results"), list)]


def text_of(value):
    """Returns a baseline as text: over many lines, or on one where that would be too long for `gate`."""
    text = json.dumps(value, indent=2, sort_keys=True) + "\n"
    if len(text) > MOST:
        text = json.dumps(value, sort_keys=True, separators=(",", ":")) + "\n"
    if len(text) > MOST:
        raise BaselineFault(f"the baseline would have {len(text)} bytes, and ccheck gate reads at most {MOST}: "
                            "make one for each part of the project")
    return text


def write_baseline(path, value):
    """Writes a baseline as a whole, or not at all."""
    text = text_of(value)
    folder = os.path.dirname(os.path.abspath(path))
    try:
        handle, made = tempfile.mkstemp(dir=folder, prefix=".ccheck-baseline-")
        with os.fdopen(handle, "w", encoding="utf-8") as file:
            file.write(text)
        os.chmod(made, 0o644)
        os.replace(made, path)
    except OSError as fault:
        raise BaselineFault(f"{path}: {fault.strerror}") from fault
