"""Reports of ccheck: where the program is, what its exit statuses mean, and its three formats read into one form."""
import dataclasses
import json
import os
import re
import shutil
import subprocess
import urllib.parse

FOLDER = os.path.dirname(os.path.realpath(__file__))
TOOLS = os.path.dirname(FOLDER)
BUILT = os.path.join("crates", "ccheck_main", "out", "ccheck_main")

CLEAN, FOUND, REFUSED, COMMAND_LINE, NO_FILE, READ_FAILED, WRITE_FAILED, MEMORY, LIMIT, CERTIFICATE = range(10)

STATUSES = {
    CLEAN: "accepted, no diagnostic",
    FOUND: "accepted, with diagnostics",
    REFUSED: "the unit is refused",
    COMMAND_LINE: "the command line, the model, the baseline or the draws are refused",
    NO_FILE: "a file is not there",
    READ_FAILED: "a file could not be read (a directory, or no permission?)",
    WRITE_FAILED: "the output could not be written (is the disk full?)",
    MEMORY: "out of memory",
    LIMIT: "a limit is passed",
    CERTIFICATE: "the certificate is refused",
}

RULES = {
    "accfree": "freed memory is used",
    "boolasgn": "assignment stands as a condition",
    "chrsgnext": "character argument is out of range",
    "dblfree": "memory is freed twice",
    "diverr": "division is undefined",
    "insufmem": "allocation is too small for its type",
    "intoflow": "signed result is out of range",
    "invptr": "pointer is out of bounds",
    "libptr": "library call passes the end of an object",
    "nonnullcs": "string has no terminating zero",
    "nullref": "null or ended pointer is dereferenced",
    "ptrobj": "pointers into different objects",
    "sizeofptr": "sizeof is taken of a pointer",
    "strmod": "string literal is modified",
    "swtchdflt": "switch has no default",
    "taintsink": "tainted value reaches a sink",
    "uninitref": "uninitialized memory is read",
    "xfree": "memory was not allocated",
}

DIAGNOSTIC = re.compile(r"(?P<file>.*):(?P<line>\d+):(?P<column>\d+): (?P<rule>[a-z]+): (?P<text>.*)")
REFUSAL = re.compile(r"(?P<file>.*):(?P<line>\d+):(?P<column>\d+): (?P<kind>refused|limit): (?P<word>\w+)"
                     r"(?: (?P<rest>.*))?")
ANSWER = re.compile(r"ccheck: (?P<text>.*)")
CERTIFICATE_LINE = re.compile(r"(?P<file>.*): refused: (?P<word>Form|Start|Edge)(?: (?P<rest>\d+))?")
END = re.compile(r"end: (?P<end>\w+), (?P<used>\d+) draws used")
COUNT = re.compile(r"(?P<count>\d+) diagnostics in (?P<unit>.*)")


class ProgramMissing(Exception):
    """There is no ccheck to run; the message says where it was looked for."""


class NotAReport(Exception):
    """A text is not a report of ccheck; the message says why."""


@dataclasses.dataclass(frozen=True, order=True)
class Diagnostic:
    """One diagnostic: its place, with line and column from 1 and columns in bytes, its rule and its text."""
    file: str
    line: int
    column: int
    rule: str
    text: str

    def as_text(self):
        """Returns the line that ccheck prints."""
        return f"{self.file}:{self.line}:{self.column}: {self.rule}: {self.text}"


@dataclasses.dataclass(frozen=True)
class Refusal:
    """Why a unit has no report: `kind` is "refused" or "limit", `rest` the name or the numbers after the word."""
    file: str
    line: int
    column: int
    kind: str
    word: str
    rest: str

    def as_text(self):
        """Returns the line that ccheck prints."""
        rest = f" {self.rest}" if self.rest else ""
        return f"{self.file}:{self.line}:{self.column}: {self.kind}: {self.word}{rest}"


@dataclasses.dataclass
class Report:
    """What one call of ccheck printed. `unit` is None and `refusal` is set where there is no list of diagnostics."""
    unit: str | None = None
    diagnostics: list = dataclasses.field(default_factory=list)
    refusal: Refusal | None = None
    answer: str = ""            # the text after "ccheck: ", or of a refused certificate
    end: str = ""               # of a replay: ended, violation, draws, left or steps
    used: int = 0               # of a replay: how many draws it used


def find_program(environment=None):
    """Returns the path of ccheck: $CCHECK, else next to the tools, else on PATH, else the built program of the tree."""
    environment = os.environ if environment is None else environment
    if environment.get("CCHECK"):
        return environment["CCHECK"]
    tree = os.path.dirname(TOOLS)
    prefix = os.path.dirname(os.path.dirname(tree)) if os.path.basename(os.path.dirname(tree)) == "share" else tree
    for path in (os.path.join(TOOLS, "ccheck"), os.path.join(prefix, "bin", "ccheck")):
        if os.path.isfile(path) and os.access(path, os.X_OK):
            return path
    found = shutil.which("ccheck", path=environment.get("PATH"))
    if found:
        return found
    built = os.path.join(tree, BUILT)
    if os.path.isfile(built):
        return built
    raise ProgramMissing(f"there is no ccheck: set CCHECK to its path, put it on PATH, or run make ({built})")


def call_program(words, program=None, folder=None):
    """Runs ccheck over the words of a command line. Returns its status and the text that it printed."""
    program = program or find_program()
    try:
        done = subprocess.run([program, *words], stdout=subprocess.PIPE, cwd=folder, check=False)
    except OSError as fault:
        raise ProgramMissing(f"{program} could not be started: {fault.strerror}") from fault
    return done.returncode, decoded(done.stdout)


def decoded(data):
    """Returns bytes of ccheck as text. Bytes that are not UTF-8 survive a way back by `encoded`."""
    return data.decode("utf-8", "surrogateescape")


def encoded(text):
    """Returns the bytes of a text that `decoded` has made."""
    return text.encode("utf-8", "surrogateescape")


def status_words(status):
    """Returns what an exit status of ccheck means, as a piece of a sentence."""
    if status < 0:
        return f"ccheck was ended by signal {-status}"
    return STATUSES.get(status, f"status {status}, which ccheck does not have")


def read_report(text):
    """Reads a report of any of the three formats."""
    start = text.lstrip()[:1]
    if start != "{":
        return read_text(text)
    try:
        value = json.loads(text)
    except ValueError as fault:
        raise NotAReport(f"the text begins as JSON and is not JSON: {fault}") from fault
    return read_sarif(value) if "runs" in value else read_json(value)


def read_text(text):
    """Reads the text of `check`, `gate`, `verify` or `replay`, a refusal or an answer about the command line."""
    report = Report()
    for line in text.split("\n"):
        if line:
            read_line(report, line)
    return report


def read_line(report, line):
    """Adds what one line of a text says to a report."""
    if found := COUNT.fullmatch(line):
        report.unit = found["unit"]
    elif found := REFUSAL.fullmatch(line):
        report.refusal = Refusal(found["file"], int(found["line"]), int(found["column"]), found["kind"], found["word"],
                                 found["rest"] or "")
    elif (found := DIAGNOSTIC.fullmatch(line)) and found["rule"] in RULES:
        report.diagnostics.append(Diagnostic(found["file"], int(found["line"]), int(found["column"]), found["rule"],
                                             found["text"]))
    elif found := END.fullmatch(line):
        report.end, report.used = found["end"], int(found["used"])
    elif found := ANSWER.fullmatch(line):
        report.answer = found["text"]
    elif CERTIFICATE_LINE.fullmatch(line):
        report.answer = line
    else:
        raise NotAReport(f"this line is not one of ccheck: {line}")


def read_json(value):
    """Reads the object of `--format json`."""
    try:
        keys = ("file", "line", "column", "rule", "text")
        found = [Diagnostic(*(it[key] for key in keys)) for it in value["diagnostics"]]
        return Report(unit=value["unit"], diagnostics=found)
    except (KeyError, TypeError) as fault:
        raise NotAReport("the JSON is not a report of ccheck: it lacks `diagnostics` or `unit`") from fault


def read_sarif(value):
    """Reads an object of SARIF 2.1.0. Results of all its runs are taken; those without a place are left out."""
    report = Report(unit="")
    for run in value["runs"]:
        for result in run.get("results", ()):
            one = read_result(result)
            if one:
                report.diagnostics.append(one)
    return report


def read_result(result):
    """Returns the diagnostic of a SARIF result, or None where it lacks a rule or a place."""
    try:
        physical = result["locations"][0]["physicalLocation"]
        uri = physical["artifactLocation"]["uri"]
        region = physical["region"]
        name = urllib.parse.unquote(uri, errors="surrogateescape")
        return Diagnostic(name, region["startLine"], region["startColumn"], result["ruleId"], result["message"]["text"])
    except (KeyError, IndexError, TypeError):
        return None


def uri_of(name):
    """Returns a file name as `--format sarif` writes it."""
    return urllib.parse.quote(encoded(name), safe="/-._~")
