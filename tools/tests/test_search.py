"""show-me: marks, the pieces of a unit, and runs that are found in faulty units."""
import re
import tempfile

from ccheck_tools import marks, pieces, replays, search
from tooling import EXAMPLES, FAULTY, ToolTest, write

SAMPLE = ("average_of_nothing", "cleaned_twice", "divisor_42", "long_line", "calendar", "high_byte",
          "third_memory", "trim")


def wanted_in(text):
    """Returns the line and the rule of the diagnostic that is real in a faulty unit, and its entry."""
    entry = re.match(r"/\* entry: (\w+) \*/", text)
    for number, line in enumerate(text.split("\n"), 1):
        found = re.search(r"/\* real: (\w+) \*/", line)
        if found:
            return number, found[1], entry[1] if entry else "main"
    raise AssertionError("no line is marked as real")


class Finds(ToolTest):
    """Runs in faulty units."""

    def test_a_sample_of_the_faulty_units(self):
        for name in SAMPLE:
            path = f"{FAULTY}/{name}.c"
            with open(path, encoding="utf-8") as file:
                line, rule, entry = wanted_in(file.read())
            words = [path, str(line), "--tag", rule, "--entry", entry]
            status, draws, why = self.tool("show-me", *words)
            self.assertEqual(status, 0, f"{name}: {why}")
            self.file("draws.txt", draws)
            text = self.ccheck("replay", path, "--entry", entry, "--draws", "draws.txt")[1]
            self.assertRegex(text, rf":{line}:\d+: {rule}: ", name)

    def test_headers_that_the_unit_includes_are_searched(self):
        self.file("inc/part.h", "static int part(int n) { if (n == 77) return 1 / (n - 77); return 0; }\n")
        self.file("a.c", '#include "part.h"\n#include <stdio.h>\nint main(void) { return part(getchar()); }\n')
        column = self.ccheck("check", "a.c", "inc")[1].split(":")[2]
        for place in ("1", f"inc/part.h:1:{column}"):
            words = ["a.c", place, "--tag", "diverr", "inc"]
            self.assertEqual(self.tool("show-me", *words)[:2], (0, "77\n"), place)
        self.assertEqual(self.tool("show-me", "a.c", "a.c:1", "--tag", "diverr", "inc")[0], 1)
        self.assertEqual(self.tool("show-me", "a.c", "x", "inc")[0], 2)

    def test_lines_without_their_ends_are_tried(self):
        self.file("a.c", "#include <stdio.h>\n#include <string.h>\nint main(void)\n{\n    char one[8] = \"\", two[8] = \"\";\n"
                         "    if (fgets(one, 8, stdin) == NULL || fgets(two, 8, stdin) == NULL)\n        return 0;\n"
                         "    if (strcmp(one, \"-x\") == 0)\n        return 1 / (one[0] - '-');\n    return 0;\n}\n")
        status, draws, why = self.tool("show-me", "a.c", "9", "--tag", "diverr")
        self.assertEqual(status, 0)
        self.assertTrue(draws.startswith("1 2 45 120 "), draws)
        self.assertIn("lines without their ends", why)

    def test_a_false_alarm_has_no_run(self):
        status, text, why = self.tool("show-me", f"{EXAMPLES}/average.c", "12", "--tries", "100")
        self.assertEqual((status, text), (1, ""))
        self.assertIn("proves nothing", why)

    def test_a_unit_without_input_has_one_run(self):
        self.file("a.c", "int main(void)\n{\n    int a[2] = {0};\n    int i;\n    for (i = 0; i < 2; i++)\n"
                         "        a[i] = 1 + a[1 - i];\n    return 1 / a[0];\n}\n")
        status, _, why = self.tool("show-me", "a.c", "7")
        self.assertEqual(status, 1)
        self.assertRegex(why, "none of [1-9] runs")

    def test_no_such_diagnostic_and_no_run(self):
        self.file("bad.c", "int price@;\n")
        self.file("big.c", "static char a[4194305];\nint main(void) { int z = 0; return a[0] / z; }\n")
        self.assertEqual(self.tool("show-me", f"{EXAMPLES}/average.c", "1")[0], 1)
        self.assertEqual(self.tool("show-me", "bad.c", "1")[0], 2)
        self.assertEqual(self.tool("show-me", "missing.c", "1")[0], 2)
        status, _, why = self.tool("show-me", "big.c", "2", "--tag", "diverr")
        self.assertEqual(status, 2)
        self.assertIn("ReplayMemory", why)


class Marks(ToolTest):
    """The marked copy."""

    def marked(self, text):
        """Returns the outcome of a run of a marked copy without draws, and the copy."""
        path = write(f"{self.folder}/a.c", text)
        folder = tempfile.TemporaryDirectory(dir=self.folder)
        self.addCleanup(folder.cleanup)
        copy = marks.MarkedUnit(path, folder.name, [])
        with replays.Replays(self.program, copy.path) as runs:
            return copy, runs.run([])

    def test_statements_of_all_kinds_take_marks(self):
        copy, outcome = self.marked(
            "enum e { A = 1 && 1, B };\nstruct s { int a[2]; };\n#define T(x) ((x) && 1)\n"
            "static int f(int n) { switch (n) { case A ? 1 : 2: return 1; case B: n = 3; default: break; } return n; }\n"
            "int main(void)\n{\n    struct s t = {{1, 2}};\n    int i;\n    for (i = 0; i < 2; i++) ;\n    for (;;) break;\n"
            "    do { i--; } while (i > 0);\n    while (i < 3 && T(1) || i == 2) { i++; }\n"
            "    if (t.a[0] == 1) i = f(1); else { i = 0; }\n    { int x[1] = {0}; i += x[0]; }\n    return i ? 1 : 0;\n}\n")
        reached, others = copy.reached(outcome.pairs)
        self.assertEqual((outcome.end, others), ("ended", set()))
        self.assertGreater(len(reached), 12)

    def test_a_mark_changes_no_diagnostic(self):
        copy, outcome = self.marked("int main(void)\n{\n    int z = 0;\n    if (z == 0)\n        return 1 / z;\n    return 2;\n}\n")
        reached, others = copy.reached(outcome.pairs)
        self.assertTrue(reached)
        self.assertEqual({(it.line - marks.HEAD_LINES, it.rule) for it in others}, {(5, "diverr")})

    def test_tokens_join_to_the_text(self):
        text = '#define A \\\n 1 // x\nint a = \'"\'; /* " */ char *s = "\\"//"; x->y <<= 1 && 2;\n'
        self.assertEqual("".join(it.text for it in marks.tokens_of(text)), text)


class Pieces(ToolTest):
    """What a unit's text names."""

    def test_numbers_characters_strings_and_lengths(self):
        found = pieces.Pieces("/* 99 */ char a[12]; x == 'q' || y == '\\n' || z == 0x1F; s = \"HELO\\n\"; \"stdio.h\"")
        self.assertTrue({11, 12, 13, 31, ord("q"), ord("q") + 1, 10} <= set(found.numbers))
        self.assertNotIn(99, found.numbers)
        self.assertEqual(found.strings, [b"HELO\n"])
        self.assertTrue({ord("q"), 10} <= set(found.characters))
        self.assertIn(13, found.lengths)

    def test_random_draws_are_in_the_range_of_files(self):
        import random
        chance = random.Random(3)
        draws = [it for _ in range(50) for it in search.some_draws(chance, [5])]
        self.assertTrue(all(-2 ** 63 <= it < 2 ** 64 for it in draws))
