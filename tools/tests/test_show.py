"""ccheck-show: lines of source, reasons, statuses, and the explanation of each rule and refusal."""
import os
import subprocess
import sys

from ccheck_tools import command_words, reports, rule_pages
from tooling import EXAMPLES, ROOT, TOOLS, ToolTest

QUICK = True
DIVIDE = "int main(void)\n{\n\tint zero = 0;\n\treturn 1 / zero;\n}\n"


class Shows(ToolTest):
    """What is printed of reports."""

    def test_a_diagnostic_has_its_line_and_a_caret(self):
        self.file("a.c", DIVIDE)
        status, text, _ = self.tool("ccheck-show", "check", "a.c")
        self.assertEqual(status, 1)
        lines = text.split("\n")
        self.assertEqual(lines[0], "a.c:4:11: diverr: division is undefined")
        self.assertEqual(lines[1], "    4 | \treturn 1 / zero;")
        self.assertEqual(lines[2], "      | \t         ^")
        self.assertIn("ccheck-show explain diverr", lines[3])
        self.assertEqual(lines[-2], "1 diagnostic in a.c: 1 diverr")

    def test_bytes_before_the_place_count_as_the_characters_that_they_are(self):
        self.file("a.c", 'int main(void) { int z = 0; /* \u00e4\u00f6 */ return 1 / z; }\n')
        lines = self.tool("ccheck-show", "check", "a.c")[1].split("\n")
        self.assertEqual(lines[1][lines[2].index("^")], "/")

    def test_the_three_formats_are_shown_alike(self):
        self.file("a.c", DIVIDE)
        shown = []
        for name in ("text", "json", "sarif"):
            report = self.ccheck("check", "a.c", "--format", name)[1]
            status, text, _ = self.tool("ccheck-show", data=report.encode())
            self.assertEqual(status, 1)
            shown.append(text.split("\n")[:4])
        self.assertEqual(shown[0], shown[1])
        self.assertEqual(shown[0], shown[2])

    def test_a_clean_unit(self):
        self.file("a.c", "int main(void) { return 0; }\n")
        self.assertEqual(self.tool("ccheck-show", "check", "a.c")[:2], (0, "0 diagnostics in a.c\n"))

    def test_a_refusal_has_its_line_and_a_reason(self):
        self.file("a.c", "int main(void)\n{\n    return strchr(0, 1) != 0;\n}\n")
        status, text, _ = self.tool("ccheck-show", "check", "a.c")
        self.assertEqual(status, 2)
        self.assertIn("    3 |     return strchr(0, 1) != 0;", text)
        self.assertIn("strchr has no declaration", text)

    def test_a_report_on_standard_input_has_the_status_that_ccheck_has(self):
        for text, wanted in (("0 diagnostics in a.c\n", 0), ("a.c:1:1: refused: NoEntry\n", 2),
                             ("a.c:1:1: limit: TooManyTokens 131073/131072\n", 8), ("ccheck: no file a.c\n", 4),
                             ("ccheck: words refused\n", 3), ("nothing of ccheck\n", 2)):
            self.assertEqual(self.tool("ccheck-show", data=text.encode())[0], wanted, text)

    def test_units_that_the_driver_did_not_analyse_are_named(self):
        self.file("a.c", "int main(void) { return 0; }\n")
        for name in ("json", "sarif"):
            report = self.tool("ccheck-cc", "a.c", "missing.c", "--format", name)[1]
            status, _, why = self.tool("ccheck-show", data=report.encode())
            self.assertEqual(status, 2)
            self.assertIn("not analysed: missing.c", why)

    def test_the_end_of_a_replay_is_explained(self):
        status, text, _ = self.tool("ccheck-show", "replay", "average.c", folder=EXAMPLES)
        self.assertEqual(status, 0)
        self.assertIn("end: draws, 0 draws used: the run wanted a draw that was not there", text)

    def test_colours_are_for_terminals_alone(self):
        self.file("a.c", DIVIDE)
        self.assertNotIn("\033[", self.tool("ccheck-show", "check", "a.c")[1])
        for changes, wanted in (({"TERM": "xterm"}, True), ({"TERM": "xterm", "NO_COLOR": "1"}, False)):
            self.assertEqual(b"\033[" in self.on_a_terminal("check", "a.c", **changes), wanted)

    def on_a_terminal(self, *words, **changes):
        """Runs ccheck-show with a terminal as its output; returns what it printed."""
        main, other = os.openpty()
        environment = {it: value for it, value in self.environment.items() if it != "NO_COLOR"}
        done = subprocess.Popen([sys.executable, f"{TOOLS}/ccheck-show", *words], cwd=self.folder, stdout=other,
                                env={**environment, **changes})
        done.wait()
        os.close(other)
        data = os.read(main, 65536)
        os.close(main)
        return data

    def test_certificates_and_other_texts_pass_through(self):
        self.file("a.c", DIVIDE)
        self.assertEqual(self.tool("ccheck-show", "prove", "a.c")[:2], self.ccheck("prove", "a.c")[:2])


class Statuses(ToolTest):
    """Reasons where ccheck prints none."""

    def fake(self, status):
        """Makes a program that prints nothing and ends with a status."""
        self.file("fake", f"#!/bin/sh\nexit {status}\n")
        os.chmod(f"{self.folder}/fake", 0o755)
        return f"{self.folder}/fake"

    def test_statuses_without_a_text_have_a_sentence(self):
        for status in (5, 6, 7):
            code, text, why = self.tool("ccheck-show", "check", "a.c", CCHECK=self.fake(status))
            self.assertEqual((code, text), (status, ""))
            self.assertEqual(why, f"ccheck-show: {reports.STATUSES[status]}\n")

    def test_a_directory_as_unit(self):
        status, _, why = self.tool("ccheck-show", "check", ".")
        self.assertEqual(status, 5)
        self.assertIn("a directory", why)

    def test_a_full_disk(self):
        self.file("a.c", DIVIDE)
        with open("/dev/full", "wb") as full:
            done = subprocess.run([sys.executable, f"{TOOLS}/ccheck-show", "check", "a.c"], cwd=self.folder, stdout=full,
                                  stderr=subprocess.PIPE, env=self.environment, check=False)
        self.assertEqual(done.returncode, 6)
        self.assertIn(b"could not be written", done.stderr)

    def test_each_tool_says_that_its_output_is_lost(self):
        self.file("a.c", "#include <stdio.h>\nint main(void)\n{\n    return 1 / (getchar() + 1);\n}\n")
        for words, lost in ((["ccheck-show", "check", "a.c"], 6), (["ccheck-show", "explain", "diverr"], 6),
                            (["ccheck-html", "--out", "pages", "a.c"], 2), (["ccheck-draws", "a.c", "--text", ""], 2),
                            (["show-me", "a.c", "4", "--tag", "diverr"], 2), (["ccheck-baseline", "make", "b.json", "a.c"], 2)):
            for output in (">/dev/full", ">&-"):
                line = f'"$0" {TOOLS}/"$@" {output}'
                status, _, why = self.call("sh", "-c", line, sys.executable, *words)
                self.assertEqual(status, lost, words)
                self.assertEqual(why.count(": the output "), 1, why)
                self.assertNotIn("Traceback", why)

    def test_a_second_unit_is_named(self):
        self.file("a.c", "int main(void) { return 0; }\n")
        self.file("b.c", DIVIDE)
        status, _, why = self.tool("ccheck-show", "check", "a.c", "b.c")
        self.assertEqual(status, 0)
        self.assertIn("did not analyse: b.c", why)

    def test_each_refused_command_line_has_a_reason(self):
        self.file("a.c", DIVIDE)
        for words, wanted in ((["check"], "no unit"), (["chek", "a.c"], "not a verb"), (["check", "a.c", "-Iinc"], "no -I"),
                              (["check", "a.c", "--turn", "3"], "--turns must be written out"),
                              (["check", "a.c", "--turns", "65"], "from 0 to 64 in decimal digits"), (["check", "a.c", "--turns"], "lacks"),
                              (["check", "a.c", "--format", "JSON"], "one of text, json, sarif"),
                              (["check", "a.c", "--entry=f", "--entry=g"], "given twice"),
                              (["gate", "a.c"], "needs --base"), (["verify", "a.c"], "needs --cert"),
                              (["check", "a.c", "--turns", "007"], "in decimal digits"), (["check", "a.c", "-DX=1"], "no -D")):
            self.assertTrue(any(wanted in it for it in command_words.reasons(words)), words)
            if words[-1] == "007":
                continue
            status, _, why = self.tool("ccheck-show", *words)
            self.assertEqual(status, 3, words)
            self.assertIn(wanted, why)

    def test_right_command_lines_have_none(self):
        for words in (["check", "a.c"], ["check", "a.c", "inc", "--turns=3"], ["gate", "--base", "b", "a.c"],
                      ["replay", "a.c", "--steps", "0"], ["check", "--", "a.c", "-x"]):
            self.assertEqual(command_words.reasons(words), [])


class Explains(ToolTest):
    """explain WORD."""

    def test_each_rule_and_refusal_has_a_section(self):
        with open(f"{ROOT}/man/ccheck.1", encoding="utf-8") as file:
            man = file.read()
        words = [*reports.RULES, "HeaderMissing", "Undeclared", "NoEntry", "Syntax", "Recursion", "TooManyTokens"]
        for word in words:
            self.assertIn(word, man)
            self.assertTrue(rule_pages.explained(word), word)

    def test_explain(self):
        status, text, _ = self.tool("ccheck-show", "explain", "diverr")
        self.assertEqual(status, 0)
        self.assertTrue(text.startswith("## diverr\n"))
        self.assertNotIn("## dblfree", text)
        self.assertEqual(len(self.tool("ccheck-show", "explain")[1].split("\n")), 19)
        self.assertEqual(self.tool("ccheck-show", "explain", "nothing")[0], 2)
