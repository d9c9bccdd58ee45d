"""The command line of a tool: --help prints the text at the head of the tool, a mistake one sentence."""
import argparse
import os
import sys


class Parser(argparse.ArgumentParser):
    """A parser whose help is a text as it is, and which complains in one line with status 2."""

    def __init__(self, name, text):
        super().__init__(prog=name, add_help=False, allow_abbrev=False)
        self.text = text
        self.add_argument("-h", "--help", action="store_true")

    def print_help_if_asked(self, words):
        """Prints the help and ends, where the words ask for it."""
        if "--help" in words or "-h" in words:
            print(self.text, end="")
            sys.exit(0)

    def parse(self, words):
        """Returns the options."""
        self.print_help_if_asked(words)
        return self.parse_args(words)

    def parse_some(self, words):
        """Returns the options, and the words that are not of this tool."""
        self.print_help_if_asked(words)
        return self.parse_known_args(words)

    def error(self, message):
        """Ends with a sentence."""
        print(f"{self.prog}: {message}; see {self.prog} --help", file=sys.stderr)
        sys.exit(2)


def run(name, main, lost=2):
    """Runs a tool and ends the process with its status, or with `lost` where its output cannot be written."""
    if sys.stdout is None:
        print(f"{name}: the output is closed", file=sys.stderr)
        sys.exit(lost)
    sys.stdout.reconfigure(errors="surrogateescape")
    try:
        status = main(sys.argv[1:])
        sys.stdout.flush()
    except BrokenPipeError:
        status = lost
        forget_output()
    except OSError as fault:
        where = fault.filename or "the output could not be written"
        print(f"{name}: {where}: {fault.strerror}", file=sys.stderr)
        status = lost
        forget_output()
    sys.exit(status)


def forget_output():
    """Has nothing more be written, so that the end of the process finds no fault."""
    os.dup2(os.open(os.devnull, os.O_WRONLY), 1)
