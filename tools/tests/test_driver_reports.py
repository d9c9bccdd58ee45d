"""The reports of ccheck-cc, and the refusals in words."""
import json
import os
import shutil
import subprocess
import unittest

from driver_helpers import BAD, GOOD, UNION, DriverTest
from ccheck_tools import reports
from ccheck_tools.refusal_words import GENERAL

QUICK = True
ROOT = os.path.dirname(reports.TOOLS)

REFUSALS = (
    ("int price@;\n" + GOOD, "BadByte", "cannot begin a token"),
    ("#include <curses.h>\n" + GOOD, "HeaderMissing curses.h", "ccheck has no stub of it"),
    ("#error no\n" + GOOD, "ErrorDirective", "#error"),
    ("double x;\n" + GOOD, "Unsupported double", "floating types"),
    ("int main(void) { return 1.5; }\n", "NumberForm", "floating constants"),
    ("int (*f)(int);\n" + GOOD, "Syntax", "a function pointer or a call through one (line 1)"),
    ("struct s {\n  int a : 3;\n};\n" + GOOD, "Syntax", "a bit-field (line 2)"),
    ("struct s { int a; } x = { .a = 1 };\n" + GOOD, "Syntax", "a designated initializer"),
    ("int main(void) {\n  struct s { int a; } x; return 0; }\n", "Syntax", "a struct body within a block (line 2)"),
    ("int main(void) { typedef int t; return 0; }\n", "Syntax", "a typedef within a block"),
    ("int main(void) { return ({ 1; }); }\n", "Syntax", "a statement expression"),
    ("struct s { int a; }; int f(struct s *p) { return 0; }\nint main(void) { return f(&(struct s){1}); }\n", "Syntax",
     "a compound literal (line 2)"),
    ("int main(void) { return 0 }\n", "Syntax", "gcc -fsyntax-only"),
    ("#include <stdio.h>\nint main(void) { fprintf(stderr, \"x\"); return 0; }\n", "Undeclared",
     "fprintf takes a variable number of arguments"),
    ("int main(void) { return y; }\n", "Undeclared", "y has no declaration"),
    ("extern int y; int main(void) { return y; }\n", "Undeclared", "the object y has no definition in the unit"),
    ("#define Y y\nint main(void) { return Y; }\n", "Undeclared", "the macro Y makes a name"),
    ("int f(int n) { return n ? f(n - 1) : 0; }\nint main(void) { return f(3); }\n", "Recursion", "call itself"),
    ("int main(void) { int *p = (int *)4096; return *p; }\n", "PointerInteger", "converted to an integer"),
    ("int main(void) { int n = 4; int a[n]; return 0; }\n", "ConstantNeeded", "array length"),
    ("int main(void) { printf(\"%d\", 1L); return 0; }\n", "FormatFault", "the format of printf"),
    ("int main(void) { int a[64][16][8]; return 0; }\n", "TooLarge", "cells"),
)


class Refusals(DriverTest):
    """Each refusal is explained, with the line of source."""

    def test_words(self):
        for text, word, reason in REFUSALS:
            with self.subTest(text):
                told = self.refused(text)
                self.assertEqual(word, told[0])
                self.assertIn(reason, told[1])

    def test_each_refusal_has_a_sentence(self):
        with open(reports.TOOLS + "/../docs/refusals.md", encoding="utf-8") as page:
            heads = {line[4:].strip() for line in page if line.startswith("### ")}
        heads = {it for it in heads if it.isidentifier()}
        self.assertEqual(set(), heads - set(GENERAL) - {"Unsupported", "Syntax", "Undeclared", "CertTooLong"})

    def test_the_line_of_source(self):
        fault = self.analysed("int x;\n" + UNION)["units"][0]["not_analysed"][0]
        self.assertEqual(("union u { int i; char c; };", 2, 1), (fault["source"], fault["line"], fault["column"]))


    def test_characters_that_a_terminal_obeys(self):
        fault = self.analysed("int main(void) { return \"a\bé\"; }\n")["units"][0]["not_analysed"][0]
        self.assertEqual(("BadByte", "int main(void) { return \"a?é\"; }"), (fault["word"], fault["source"]))

    def test_nothing_is_assumed_of_a_unit_that_is_refused(self):
        self.assertEqual("", self.assumed("extern void abort(void);\n" + UNION))


class Formats(DriverTest):
    """Text, JSON and SARIF."""

    def setUp(self):
        super().setUp()
        self.write("good.c", GOOD)
        self.write("bad.c", BAD)
        self.write("refused.c", UNION)

    def test_json(self):
        status, output, _ = self.run_driver("--format", "json", "good.c", "bad.c", "refused.c")
        report = json.loads(output)
        self.assertEqual((2, 2), (status, report["status"]))
        self.assertEqual([True, True, False], [it["accepted"] for it in report["units"]])
        self.assertEqual(reports.read_report(output).diagnostics,
                         [reports.Diagnostic("bad.c", 1, 38, "diverr", "division is undefined")])

    def test_sarif(self):
        status, output, _ = self.run_driver("--format", "sarif", "good.c", "bad.c", "refused.c")
        run = json.loads(output)["runs"][0]
        self.assertEqual((2, 1, 18), (status, len(run["results"]), len(run["tool"]["driver"]["rules"])))
        self.assertFalse(run["invocations"][0]["executionSuccessful"])
        self.assertIn("refused.c:1:1: refused: Unsupported union: unions are not accepted",
                      [it["message"]["text"] for it in run["invocations"][0]["toolExecutionNotifications"]])
        self.assertEqual(reports.read_report(output).diagnostics[0].column, 38)

    def test_sarif_is_a_baseline_for_the_gate(self):
        base = self.write("base.sarif", self.run_driver("--format", "sarif", "bad.c")[1])
        done = subprocess.run([self.program, "gate", "bad.c", "--base", base], cwd=self.folder, stdout=subprocess.PIPE,
                              check=False)
        self.assertEqual((0, b"0 diagnostics in bad.c\n"), (done.returncode, done.stdout))

    def test_base(self):
        for form in ("text", "json", "sarif"):
            base = self.write("base", self.run_driver("--format", form, "bad.c")[1])
            if form == "text":
                base = self.write("base", "bad.c:1:38: diverr: division is undefined\n1 diagnostics in bad.c\n")
            self.assertEqual(0, self.run_driver("bad.c", "--base", base)[0])
        self.assertEqual(2, self.run_driver("bad.c", "--base", "nothere")[0])
        self.assertEqual(2, self.run_driver("bad.c", "--base", "bad.c")[0])

    def test_a_header_of_two_units_is_reported_once(self):
        self.write("own.h", "static int f(int n) { return 1 / n; }\n")
        self.write("a.c", '#include "own.h"\nint a(int n) { return f(n); }\n')
        self.write("b.c", '#include "own.h"\nint b(int n) { return f(n); }\n')
        output = self.run_driver("a.c", "b.c")[1]
        self.assertEqual(1, output.count("own.h:1:32: diverr"))
        self.assertIn("2 units: 2 accepted, 0 of them without diagnostics, 0 not analysed; 1 diagnostic\n", output)

    def test_keep(self):
        self.run_driver("bad.c", "--keep", "kept")
        call = [self.program, "check", "kept/1/unit.c"]
        done = subprocess.run(call, cwd=self.folder, stdout=subprocess.PIPE, check=False)
        self.assertEqual(1, done.returncode)


class Page(DriverTest):
    """docs/driver.md prints what ccheck-cc prints."""

    def test_examples(self):
        with open(os.path.join(ROOT, "docs", "driver.md"), encoding="utf-8") as file:
            page = file.read()
        shutil.copytree(os.path.join(ROOT, "examples", "project"), self.folder, dirs_exist_ok=True)
        self.write("old.c", page.split("```c\n")[1].split("```")[0])
        self.write("shape.c", "struct shape { int sides; int (*area)(int); };\n" + GOOD)
        blocks = [it.split("\n```")[0] for it in page.split("```text\n$ ccheck-cc ")[1:]]
        self.assertEqual(4, len(blocks))
        for block in blocks:
            words, _, printed = block.partition("\n")
            with self.subTest(words):
                self.assertEqual(printed + "\n", self.run_driver(*words.split())[1])


if __name__ == "__main__":
    unittest.main()
