"""The command ccheck-cc: its options, the units side by side, the report."""
import argparse
import concurrent.futures
import os
import sys
import tempfile

from ccheck_tools import merged, reports
from ccheck_tools.analysis import Analysis, Fault, Outcome
from ccheck_tools.command_line import CommandFault, read_command
from ccheck_tools.compile_commands import NAME, read_database

USAGE = "ccheck-cc [OPTION].. [COMPILER OPTION].. UNIT.. | [OPTION].. compile_commands.json"
DESCRIPTION = """Runs ccheck over each UNIT and prints one report. The options of the compiler that name headers,
macros and the data model are used (-I -iquote -isystem -idirafter -D -U -include -std -m32 -funsigned-char);
others are passed over. A file compile_commands.json names the units and their options."""
STATUSES = """Exit status: 0 all units are accepted, without diagnostics; 1 with diagnostics; 2 something was not
analysed, or the command line is faulty. docs/driver.md says what is rewritten and assumed."""


def parser():
    """Returns the parser of ccheck-cc's own options."""
    made = argparse.ArgumentParser(prog="ccheck-cc", usage=USAGE, description=DESCRIPTION, epilog=STATUSES,
                                   allow_abbrev=False)
    made.add_argument("--jobs", type=count, default=os.cpu_count() or 1, metavar="N", help="units side by side")
    made.add_argument("--format", choices=sorted(merged.FORMATS), default="text")
    made.add_argument("--entry", action="append", default=[], metavar="NAME", help="runs start at NAME (repeatable)")
    made.add_argument("--arguments", type=number, default=2, metavar="N", help="main gets 0 to N strings (default 2)")
    made.add_argument("--argument-length", type=count, default=31, metavar="N", help="of N characters (default 31)")
    made.add_argument("--objects", action="store_true", help="pass fresh objects to pointers of library functions")
    made.add_argument("--object-count", type=count, default=1, metavar="N", help="of N elements each (default 1)")
    made.add_argument("--drop-volatile", action="store_true", help="leave out the word volatile")
    made.add_argument("--drop-attribute", action="append", default=[], metavar="NAME",
                      help="leave out an attribute that changes the meaning; `all` for each (repeatable)")
    made.add_argument("--model", metavar="NAME_OR_FILE", help="data model, in place of the one of -m32")
    made.add_argument("--turns", type=number, default=0, metavar="K", help="as of ccheck check")
    made.add_argument("--timeout", type=count, default=300, metavar="SECONDS", help="for each call of ccheck")
    made.add_argument("--base", metavar="FILE", help="leave out the diagnostics of this report (text, JSON, SARIF)")
    made.add_argument("--keep", metavar="DIR", help="write the including units to DIR and leave them there")
    made.add_argument("--replay", action="store_true", help="run ccheck replay in place of ccheck check")
    made.add_argument("--steps", type=number, default=100000, metavar="N", help="steps of a replay")
    made.add_argument("--draws", metavar="FILE", help="draws of a replay")
    return made


def number(text):
    """Reads a number of the command line."""
    if not (text.isascii() and text.isdigit()):
        raise argparse.ArgumentTypeError(f"{text!r} is not a decimal number")
    return int(text)


def count(text):
    """Reads a number above 0."""
    value = number(text)
    if value == 0:
        raise argparse.ArgumentTypeError("0 is too small")
    return value


def compilations_of(words):
    """Returns the compilations that the words name: units with options, or databases."""
    databases = [it for it in words if os.path.basename(it) == NAME or it.endswith(".json") and not it.startswith("-")]
    found = read_command([it for it in words if it not in databases])
    for path in databases:
        found += read_database(path)
    return found


def run_unit(compilation, folder, options, program):
    """Analyses one unit. A fault of ours is an outcome too, so that no unit is lost."""
    try:
        os.makedirs(folder, exist_ok=True)
        return Analysis(compilation, folder, options, program).run()
    except Exception as fault:  # pylint: disable=broad-except
        text = f"ccheck-cc failed on this unit: {type(fault).__name__}: {fault}"
        return Outcome(compilation.source, faults=[Fault(text)])


def run_all(compilations, options, program, folder):
    """Analyses all units side by side. Returns the outcomes in the order of the command line."""
    progress = Progress(len(compilations))
    with concurrent.futures.ThreadPoolExecutor(options.jobs) as pool:
        jobs = [pool.submit(run_unit, one, f"{folder}/{index}", options, program)
                for index, one in enumerate(compilations, 1)]
        for job in jobs:
            job.add_done_callback(progress.step)
        outcomes = [job.result() for job in jobs]
    progress.end()
    return outcomes


class Progress:
    """A line on standard error that counts units; nothing where that is not a terminal."""

    def __init__(self, total, stream=None):
        self.stream, self.total, self.done = stream or sys.stderr, total, 0
        self.shown = self.stream.isatty()

    def step(self, _job=None):
        """Counts one unit."""
        self.done += 1
        if self.shown:
            self.stream.write(f"\r{self.done} of {self.total} units")
            self.stream.flush()

    def end(self):
        """Takes the line away."""
        if self.shown:
            self.stream.write("\r\033[K")
            self.stream.flush()


def without_base(outcomes, path):
    """Leaves out the diagnostics that a kept report has."""
    try:
        with open(path, "rb") as file:
            known = reports.read_report(reports.decoded(file.read())).diagnostics
    except OSError as fault:
        raise CommandFault(f"the report {path} could not be read: {fault.strerror}") from fault
    except reports.NotAReport as fault:
        raise CommandFault(f"{path} is not a report: {fault}") from fault
    places = {(it.file, it.line, it.column, it.rule) for it in known}
    for one in outcomes:
        one.diagnostics = [it for it in one.diagnostics if (it.file, it.line, it.column, it.rule) not in places]


def write_report(text):
    """Writes the report to standard output. Returns whether all of it was written."""
    try:
        sys.stdout.buffer.write(reports.encoded(text))
        sys.stdout.buffer.flush()
    except OSError as fault:
        print(f"ccheck-cc: the report could not be written: {fault.strerror}", file=sys.stderr)
        sys.stdout = None
        return False
    return True


def analysed(options, compilations):
    """Analyses all units in a temporary folder, or in the one of --keep."""
    program = os.path.realpath(reports.find_program())
    if options.keep:
        return run_all(compilations, options, program, os.path.abspath(options.keep))
    with tempfile.TemporaryDirectory(prefix="ccheck-cc-") as folder:
        return run_all(compilations, options, program, folder)


def read_options(words):
    """Returns ccheck-cc's own options, and the words of the compiler's command line."""
    options, rest = parser().parse_known_args(words)
    options.objects = options.object_count if options.objects else 0
    return options, rest


def main(words):
    """Runs the command. Returns its exit status."""
    options, rest = read_options(words)
    try:
        compilations = compilations_of(rest)
        if not compilations:
            raise CommandFault("no unit is named (see ccheck-cc --help)")
        outcomes = analysed(options, compilations)
        if options.base:
            without_base(outcomes, options.base)
    except (CommandFault, reports.ProgramMissing) as fault:
        print(f"ccheck-cc: {fault}", file=sys.stderr)
        return merged.NOT_ANALYSED
    if not write_report(merged.FORMATS[options.format](outcomes)):
        return merged.NOT_ANALYSED
    return merged.status_of(outcomes)
