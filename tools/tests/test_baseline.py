"""ccheck-baseline: make, shrink, move; and that `ccheck gate` takes what it writes."""
import json
import shutil

from tooling import EXAMPLES, ToolTest, needs

QUICK = True
UNIT = """#include <stdio.h>

int main(void)
{
    int c = getchar();
    int sum = 100 / c;
    if (c > 5)
        sum = sum + 100 / (c - 7);
    return sum;
}
"""


class Baselines(ToolTest):
    """In a folder with one unit."""

    def setUp(self):
        super().setUp()
        self.file("a.c", UNIT)
        self.assertEqual(self.tool("ccheck-baseline", "make", "b.json", "a.c")[0], 0)

    def gate(self):
        """Returns the status of the gate."""
        return self.ccheck("gate", "a.c", "--base", "b.json")[0]

    def change(self, old, new):
        """Changes the unit."""
        with open(f"{self.folder}/a.c", encoding="utf-8") as file:
            text = file.read()
        self.assertIn(old, text)
        self.file("a.c", text.replace(old, new))

    def results(self):
        """Returns the results of the baseline."""
        with open(f"{self.folder}/b.json", encoding="utf-8") as file:
            return json.load(file)["runs"][0]["results"]

    def test_the_gate_passes_over_further_properties(self):
        self.assertIn("partialFingerprints", self.results()[0])
        self.assertEqual(self.gate(), 0)

    def test_lines_that_move_are_followed_by_their_hashes(self):
        self.change("#include", "/* new */\n\n#include")
        self.change("    int sum", "        int sum")
        self.assertEqual(self.gate(), 1)
        self.assertEqual(self.tool("ccheck-baseline", "move", "b.json")[0], 0)
        self.assertEqual(self.gate(), 0)

    def test_a_changed_line_is_taken_out(self):
        self.change("100 / c;", "200 / c;")
        status, text, _ = self.tool("ccheck-baseline", "move", "b.json")
        self.assertEqual(status, 1)
        self.assertIn("taken out: a.c:6:19: diverr", text)
        self.assertEqual(self.gate(), 1)

    def test_shrink_takes_out_and_never_adds(self):
        count = len(self.results())
        self.change("if (c > 5)", "if (c < 5 && c > 0)")
        self.change("int sum = 100 / c;", "int sum = 0;\n    int more = 200 / c;")
        self.tool("ccheck-baseline", "move", "b.json")
        self.assertEqual(self.tool("ccheck-baseline", "shrink", "b.json", "a.c")[0], 0)
        self.assertLess(len(self.results()), count)
        self.assertEqual(self.gate(), 1)

    def test_equal_lines_are_followed_by_the_lines_next_to_them(self):
        line = "    c = 9 / c;\n"
        self.file("a.c", "#include <stdio.h>\nint main(void)\n{\n    int c = getchar();\n" + line + "    putchar(1);\n"
                  + line + "    putchar(2);\n    return c;\n}\n")
        self.tool("ccheck-baseline", "make", "b.json", "a.c")
        self.change(line + "    putchar(1);\n", line + "    putchar(3);\n    putchar(4);\n    putchar(1);\n")
        before = [it["locations"][0]["physicalLocation"]["region"]["startLine"] for it in self.results()]
        self.assertEqual(self.tool("ccheck-baseline", "move", "b.json")[0], 0)
        after = [it["locations"][0]["physicalLocation"]["region"]["startLine"] for it in self.results()]
        self.assertEqual((before, after), ([5, 7], [5, 9]))
        self.assertEqual(self.gate(), 0)

    def test_a_refused_unit_leaves_the_baseline_as_it_is(self):
        before = self.results()
        self.file("bad.c", "int price@;\n")
        for verb in ("make", "shrink"):
            status, _, why = self.tool("ccheck-baseline", verb, "b.json", "a.c", "bad.c")
            self.assertEqual(status, 2)
            self.assertIn("bad.c:1:10: refused: BadByte", why)
        self.assertEqual(self.results(), before)

    def test_reports_of_all_formats(self):
        for name in ("json", "sarif", "text"):
            report = self.ccheck("check", "a.c", "--format", name)[1]
            self.assertEqual(self.tool("ccheck-baseline", "make", "c.json", "--report", "-", data=report.encode())[0], 0)
            with open(f"{self.folder}/c.json", encoding="utf-8") as file, open(f"{self.folder}/b.json") as other:
                self.assertEqual(file.read(), other.read())

    def test_reports_of_the_driver(self):
        for name in ("json", "sarif"):
            report = self.tool("ccheck-cc", "a.c", "--format", name)[1].encode()
            self.assertEqual(self.tool("ccheck-baseline", "make", "c.json", "--report", "-", data=report)[0], 0)
            self.assertEqual(self.ccheck("gate", "a.c", "--base", "c.json")[0], 0)
            report = self.tool("ccheck-cc", "a.c", "missing.c", "--format", name)[1].encode()
            status, _, why = self.tool("ccheck-baseline", "make", "d.json", "--report", "-", data=report)
            self.assertEqual(status, 2)
            self.assertIn("missing.c: not analysed", why)

    def test_files_that_are_no_baselines(self):
        for text in ("", "{}", "[]", '{"version":"2.1.0"}', '{"version":"2.1.0","runs":3}'):
            self.file("bad.json", text)
            self.assertEqual(self.tool("ccheck-baseline", "move", "bad.json")[0], 2)
        self.assertEqual(self.tool("ccheck-baseline", "move", "missing.json")[0], 2)

    def test_a_baseline_that_is_too_long_for_the_gate_is_refused(self):
        result = self.results()[0]
        value = {"version": "2.1.0", "runs": [{"results": [result] * 4000}]}
        self.file("b.json", json.dumps(value))
        status, _, why = self.tool("ccheck-baseline", "move", "b.json")
        self.assertEqual(status, 2)
        self.assertIn("1048576", why)


class Git(ToolTest):
    """A baseline of the program's own, without hashes, in a repository."""

    def git(self, *words):
        """Runs git."""
        return self.call("git", "-c", "user.name=t", "-c", "user.email=t@localhost", *words)

    def test_lines_are_followed_by_the_differences_of_git(self):
        needs("git")
        shutil.copytree(f"{EXAMPLES}/project", self.folder, dirs_exist_ok=True)
        self.file("b.json", self.ccheck("check", "src/lines.c", "include", "--format", "sarif")[1])
        self.git("init", "-q")
        self.git("add", "b.json", "src", "include")
        self.assertEqual(self.git("commit", "-qm", "a baseline")[0], 0)
        with open(f"{self.folder}/src/lines.c", encoding="utf-8") as file:
            text = file.read()
        self.file("src/lines.c", "/* one */\n/* two */\n" + text.replace("    char first", "    int more;\n    char first"))
        gate = ("gate", "src/lines.c", "include", "--base", "b.json")
        self.assertEqual(self.ccheck(*gate)[0], 1)
        self.assertEqual(self.tool("ccheck-baseline", "move", "b.json")[0], 0)
        self.assertEqual(self.ccheck(*gate)[0], 0)
        status, text, _ = self.tool("ccheck-baseline", "move", "b.json")
        self.assertEqual(status, 0)
        self.assertIn("not committed", text)
        self.assertEqual(self.ccheck(*gate)[0], 0)
        self.assertEqual(self.tool("ccheck-baseline", "move", "b.json", "--since", "nothing")[0], 2)
