"""ccheck-cc ends with 0, 1 or 2, and 2 wherever something was not analysed; each such thing is named."""
import os
import shutil
import subprocess
import unittest

from driver_helpers import BAD, DRIVER, GOOD, UNION, DriverTest

QUICK = True


class Statuses(DriverTest):
    """The exit status, and what is printed with it."""

    def test_clean(self):
        self.write("good.c", GOOD)
        status, output, errors = self.run_driver("good.c")
        self.assertEqual((0, ""), (status, errors))
        self.assertIn("1 unit: 1 accepted, 1 of them without diagnostics, 0 not analysed; 0 diagnostics", output)

    def test_diagnostics(self):
        self.write("good.c", GOOD)
        self.write("bad.c", BAD)
        status, output, _ = self.run_driver("good.c", "bad.c")
        self.assertEqual(1, status)
        self.assertIn("bad.c:1:38: diverr: division is undefined\n", output)

    def test_missing_among_good(self):
        self.write("good.c", GOOD)
        status, output, _ = self.run_driver("good.c", "missing.c")
        self.assertEqual(2, status)
        self.assertIn("missing.c: not analysed: missing.c could not be read: No such file or directory", output)
        self.assertIn("2 units: 1 accepted", output)

    def test_directory(self):
        os.mkdir(os.path.join(self.folder, "folder"))
        self.write("bad.c", BAD)
        status, output, _ = self.run_driver("folder", "bad.c")
        self.assertEqual(2, status)
        self.assertIn("folder: not analysed: folder could not be read: Is a directory", output)
        self.assertIn("bad.c:1:38: diverr", output)

    def test_unreadable(self):
        self.write("good.c", GOOD)
        os.chmod(self.write("secret.c", GOOD), 0)
        os.chmod(self.folder, 0o755)
        options = {}
        if os.geteuid() == 0:
            options = {"user": "nobody", "interpreter": shutil.which("python3", path="/usr/bin:/bin")}
            if options["interpreter"] is None:
                self.skipTest("there is no python3 that nobody may run")
        status, output, errors = self.run_driver("good.c", "secret.c", **options)
        if not output and "ermission" in errors:
            self.skipTest("the tools are in a folder that nobody may read")
        self.assertEqual(2, status)
        self.assertIn("secret.c: not analysed: secret.c could not be read: Permission denied", output)

    def test_refused_among_good(self):
        self.write("good.c", GOOD)
        self.write("refused.c", UNION)
        self.write("bad.c", BAD)
        status, output, _ = self.run_driver("good.c", "refused.c", "bad.c")
        self.assertEqual(2, status)
        self.assertIn("refused.c:1:1: refused: Unsupported union\n    union u { int i; char c; };\n"
                      "    not analysed: unions are not accepted\n", output)
        self.assertIn("bad.c:1:38: diverr", output)
        self.assertIn("1 not analysed: Unsupported union\n3 units: 2 accepted, 1 of them without", output)

    @unittest.skipUnless(os.path.exists("/dev/full"), "there is no /dev/full")
    def test_full_disk(self):
        self.write("good.c", GOOD)
        with open("/dev/full", "wb") as full:
            status, _, errors = self.run_driver("good.c", stdout=full)
        self.assertEqual(2, status)
        self.assertIn("ccheck-cc: the report could not be written: No space left on device", errors)

    def test_full_disk_in_the_temporary_folder(self):
        self.write("good.c", GOOD)
        status, output, _ = self.run_driver("good.c", "--keep", "/dev/null/folder")
        self.assertEqual(2, status)
        self.assertIn("good.c: not analysed: ccheck-cc failed on this unit: NotADirectoryError", output)

    def test_unreadable_header(self):
        self.write("unit.c", '#include "own.h"\n' + GOOD)
        os.mkdir(os.path.join(self.folder, "own.h"))
        self.assertEqual(2, self.run_driver("unit.c")[0])

    def test_no_unit_and_wrong_option(self):
        status, output, errors = self.run_driver()
        self.assertEqual((2, ""), (status, output))
        self.assertIn("no unit is named", errors)
        self.assertEqual(2, self.run_driver("--format", "xml", "good.c")[0])

    def test_no_program(self):
        self.write("good.c", GOOD)
        self.program = "/nonexistent/ccheck"
        status, output, errors = self.run_driver("good.c")
        self.assertEqual(2, status)
        self.assertIn("could not be started", output + errors)

    def test_signal(self):
        self.write("good.c", GOOD)
        self.program = self.write("killed", "#!/bin/sh\nkill -9 $$\n")
        os.chmod(self.program, 0o755)
        status, output, _ = self.run_driver("good.c")
        self.assertEqual(2, status)
        self.assertIn("ccheck was ended by signal 9", output)

    def test_timeout(self):
        self.write("good.c", GOOD)
        self.program = self.write("slow", "#!/bin/sh\nexec sleep 5\n")
        os.chmod(self.program, 0o755)
        status, output, _ = self.run_driver("good.c", "--timeout", "1")
        self.assertEqual(2, status)
        self.assertIn("did not end within 1 seconds", output)

    def test_order_with_several_jobs(self):
        names = [f"unit{number}.c" for number in range(12)]
        for name in names:
            self.write(name, BAD)
        _, output, _ = self.run_driver("--jobs", "4", *names)
        self.assertEqual(names, [line.split(":")[0] for line in output.splitlines() if ": diverr:" in line])

    def test_progress_only_on_a_terminal(self):
        self.write("good.c", GOOD)
        self.assertEqual("", self.run_driver("good.c")[2])
        if shutil.which("script"):
            words = f"{shutil.which('python3')} {DRIVER} --jobs 1 good.c > out.txt"
            done = subprocess.run(["script", "-qec", words, "/dev/null"], cwd=self.folder, stdout=subprocess.PIPE,
                                  env={**os.environ, "CCHECK": self.program}, check=False)
            self.assertIn(b"1 of 1 units", done.stdout)


if __name__ == "__main__":
    unittest.main()
