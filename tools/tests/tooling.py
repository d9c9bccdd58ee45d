"""What the tests of the tools share: folders, calls of tools, and what is missing on this machine."""
import os
import shutil
import subprocess
import sys
import tempfile
import unittest

HERE = os.path.dirname(os.path.realpath(__file__))
TOOLS = os.path.dirname(HERE)
ROOT = os.path.dirname(TOOLS)
EXAMPLES = os.path.join(ROOT, "examples")
FAULTY = os.path.join(HERE, "faulty")

from ccheck_tools import reports  # noqa: E402


def program():
    """Returns the ccheck that is tested, as a whole path; skips the test where there is none."""
    try:
        return os.path.abspath(reports.find_program())
    except reports.ProgramMissing as fault:
        raise unittest.SkipTest(str(fault)) from fault


def needs(*names):
    """Skips a test where a command is missing."""
    missing = [it for it in names if not shutil.which(it, path=os.environ.get("PATH", "") + ":/usr/sbin:/sbin")]
    if missing:
        raise unittest.SkipTest(f"there is no {', '.join(missing)}")


def write(path, text):
    """Writes a file, with its folder; returns its path."""
    os.makedirs(os.path.dirname(path), exist_ok=True)
    with open(path, "wb") as file:
        file.write(text if isinstance(text, bytes) else text.encode())
    return path


class ToolTest(unittest.TestCase):
    """A test in a folder of its own."""

    def setUp(self):
        self.program = program()
        room = tempfile.TemporaryDirectory(prefix="ccheck-test-")
        self.addCleanup(room.cleanup)
        self.folder = room.name
        self.environment = {**os.environ, "CCHECK": self.program, "PYTHONDONTWRITEBYTECODE": "1", "LC_ALL": "C.UTF-8"}

    def file(self, name, text):
        """Writes a file in the folder of the test; returns its name."""
        write(os.path.join(self.folder, name), text)
        return name

    def call(self, *words, data=b"", folder=None, **changes):
        """Runs a command; returns its status, its output and what it wrote to standard error."""
        done = subprocess.run(words, cwd=folder or self.folder, env={**self.environment, **changes}, input=data,
                              stdout=subprocess.PIPE, stderr=subprocess.PIPE, check=False)
        return done.returncode, done.stdout.decode("utf-8", "replace"), done.stderr.decode("utf-8", "replace")

    def tool(self, name, *words, **how):
        """Runs a tool of the tree."""
        return self.call(sys.executable, os.path.join(TOOLS, name), *words, **how)

    def ccheck(self, *words, **how):
        """Runs ccheck."""
        return self.call(self.program, *words, **how)
