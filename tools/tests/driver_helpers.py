"""What the tests of ccheck-cc share: a folder with files, and calls of the driver in it."""
import json
import os
import subprocess
import sys
import tempfile
import unittest
import unittest.mock

TOOLS = os.path.dirname(os.path.dirname(os.path.realpath(__file__)))
sys.path.insert(0, TOOLS)

from ccheck_tools import driver, merged, reports  # noqa: E402

DRIVER = os.path.join(TOOLS, "ccheck-cc")
GOOD = "int main(void) { return 0; }\n"
BAD = "int main(void) { int n = 0; return 1 / n; }\n"
UNION = "union u { int i; char c; };\nint main(void) { return 0; }\n"


def program():
    """Returns the path of ccheck, or skips the test."""
    try:
        return os.path.realpath(reports.find_program())
    except reports.ProgramMissing as fault:
        raise unittest.SkipTest(str(fault)) from fault


class DriverTest(unittest.TestCase):
    """A test with a folder of its own."""

    def setUp(self):
        self.program = program()
        made = tempfile.TemporaryDirectory()
        self.addCleanup(made.cleanup)
        self.folder = os.path.realpath(made.name)

    def write(self, name, text):
        """Writes a file of the folder."""
        path = os.path.join(self.folder, name)
        os.makedirs(os.path.dirname(path), exist_ok=True)
        with open(path, "w", encoding="utf-8") as file:
            file.write(text)
        return path

    def run_driver(self, *words, stdout=subprocess.PIPE, interpreter=sys.executable, **options):
        """Runs ccheck-cc in the folder. Returns its status, its output and its errors."""
        environment = {**os.environ, "CCHECK": self.program}
        done = subprocess.run([interpreter, DRIVER, "--jobs", "1", *words], cwd=self.folder, stdout=stdout,
                              stderr=subprocess.PIPE, env=environment, check=False, **options)
        return done.returncode, (done.stdout or b"").decode(), done.stderr.decode()

    def analysed(self, text, *words):
        """Analyses one unit unit.c with a text in this process. Returns its JSON report."""
        self.write("unit.c", text)
        here = os.getcwd()
        os.chdir(self.folder)
        try:
            with unittest.mock.patch.dict(os.environ, {"CCHECK": self.program}):
                options, rest = driver.read_options(["--jobs", "1", "unit.c", *words])
                return json.loads(merged.as_json(driver.analysed(options, driver.compilations_of(rest))))
        finally:
            os.chdir(here)

    def found(self, text, *words):
        """Returns the diagnostics of a unit as `LINE:COLUMN RULE`; the unit has to be accepted."""
        report = self.analysed(text, *words)
        self.assertEqual([], report["units"][0]["not_analysed"])
        return [f"{it['line']}:{it['column']} {it['rule']}" for it in report["diagnostics"]]

    def assumed(self, text, *words):
        """Returns the assumptions about a unit as one text."""
        return "\n".join(self.analysed(text, *words)["units"][0]["assumed"])

    def refused(self, text, *words):
        """Returns the word and the reason of the first thing of a unit that is not analysed."""
        faults = self.analysed(text, *words)["units"][0]["not_analysed"]
        self.assertTrue(faults)
        return faults[0]["word"], faults[0]["reason"] or faults[0]["text"]
