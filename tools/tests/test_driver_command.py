"""Compilers' command lines and compile_commands.json, as ccheck-cc reads them."""
import json
import os
import shutil
import subprocess
import unittest

from driver_helpers import BAD, GOOD, DriverTest
from ccheck_tools.command_line import CommandFault, read_command
from ccheck_tools.predefined import data_macros, language_macros, model_of

QUICK = True


class CommandLine(unittest.TestCase):
    """Words of a compiler's command line."""

    def test_all_options(self):
        words = ("-Iinc -I more -isystem sys -iquote q -idirafter last -DA -D B=1 -Df(x)=x -UC -include cfg.h -m32 "
                 "-std=gnu99 -Wall -O2 -g -MMD -MF x.d -c a.c -o a.o b.o libx.a -lm -funsigned-char").split()
        found, = read_command(words)
        self.assertEqual("a.c", found.source)
        self.assertEqual(["q", "inc", "more", "sys", "last"], found.searched())
        self.assertEqual([("D", "A"), ("D", "B=1"), ("D", "f(x)=x"), ("U", "C")], found.macros)
        self.assertEqual((["cfg.h"], "ilp32", False, "199901L", []),
                         (found.forced, found.model, found.char_signed, found.standard, found.notes))

    def test_several_units_and_unknown_options(self):
        found = read_command(["-fwrapv", "a.c", "-march=native", "b.c"])
        self.assertEqual(["a.c", "b.c"], [it.source for it in found])
        self.assertEqual(["options that are not looked at: -fwrapv -march=native"], found[1].notes)

    def test_option_without_value(self):
        with self.assertRaises(CommandFault):
            read_command(["a.c", "-I"])


class Database(DriverTest):
    """compile_commands.json, and what a unit's options change."""

    def database(self, entries):
        """Writes a database with the folder as directory of each entry."""
        whole = [{"directory": self.folder, **it} for it in entries]
        self.write("compile_commands.json", json.dumps(whole))

    def test_entries(self):
        self.write("src/one.c", '#include "own.h"\nint main(void) { return 1 / ZERO; }\n')
        self.write("include/own.h", "#ifdef NO\n#define ZERO 0\n#endif\n")
        self.write("two.c", GOOD)
        self.database([{"file": "src/one.c", "command": "ccache gcc -Iinclude -DNO -c -o one.o src/one.c"},
                       {"file": "two.c", "arguments": ["cc", "-c", "two.c"]},
                       {"file": "two.c", "arguments": ["cc", "-c", "two.c"]}])
        status, output, _ = self.run_driver("compile_commands.json")
        self.assertEqual(1, status)
        self.assertIn("src/one.c:2:27: diverr", output)
        self.assertIn("2 units: 2 accepted", output)

    def test_directory_of_an_entry(self):
        self.write("project/src/one.c", BAD)
        self.write("compile_commands.json", json.dumps(
            [{"directory": os.path.join(self.folder, "project"), "file": "src/one.c", "command": "cc -c src/one.c"}]))
        self.assertIn("project/src/one.c:1:38: diverr", self.run_driver("compile_commands.json")[1])

    def test_faulty_databases(self):
        for text in ("{", "{}", '[{"file": "a.c"}]', '[{"directory": "/", "file": "a.c", "command": "cc b.c"}]'):
            with self.subTest(text):
                self.write("compile_commands.json", text)
                status, output, errors = self.run_driver("compile_commands.json")
                self.assertEqual((2, ""), (status, output))
                self.assertIn("compile_commands.json", errors)
        os.remove(os.path.join(self.folder, "compile_commands.json"))
        self.assertIn("could not be read", self.run_driver("compile_commands.json")[2])

    def test_macros_and_headers(self):
        self.write("first.h", "#define FIRST 0\n")
        self.write("inc/deep/own.h", '#include "../other.h"\n')
        self.write("inc/other.h", "#define OTHER FIRST\n")
        text = '#include <deep/own.h>\nint main(void) { return N / OTHER; }\n'
        self.assertEqual(["2:27 diverr"], self.found(text, "-Iinc", "-include", "first.h", "-DN=4"))
        self.assertEqual("Undeclared", self.refused(text, "-Iinc", "-include", "first.h", "-DN=4", "-UN")[0])

    def test_places_in_headers(self):
        self.write("inc/own.h", "static int half(a) int a; { return a / 0; }\n")
        self.write("unit.c", '#include "own.h"\nint main(void) { return half(1); }\n')
        _, output, _ = self.run_driver("-I", "inc", "unit.c")
        self.assertIn("inc/own.h:1:38: diverr: division is undefined\n", output)

    def test_data_models(self):
        text = "int main(void) { return 1 / (sizeof(long) - 4); }\n"
        self.assertEqual([], self.found(text))
        self.assertEqual(["1:27 diverr"], self.found(text, "-m32"))
        self.assertEqual(["1:27 diverr"], self.found(text, "--model", "llp64"))
        sign = "int main(void) { char c = -1; return 1 / (c < 0); }\n"
        self.assertEqual([], self.found(sign))
        self.assertEqual(["1:40 diverr"], self.found(sign, "-funsigned-char"))

    def test_names_with_blanks_and_letters(self):
        self.write("sub folder/süß.c", BAD)
        self.assertIn("sub folder/süß.c:1:38: diverr", self.run_driver("sub folder/süß.c")[1])

    def test_conditions_on_unknown_names(self):
        notes = self.analysed("#ifdef __linux__\n#endif\n#if __GNUC__ > 3\n#endif\n" + GOOD, "-D__GNUC__=0")
        notes = notes["units"][0]["notes"]
        self.assertEqual(1, len(notes))
        self.assertIn("unit.c depends on __linux__, which is not defined here", notes[0])

    def test_pragmas_that_change_the_meaning(self):
        text = "#pragma once\n#pragma GCC diagnostic push\n#pragma pack(1)\n#pragma omp parallel\n" + GOOD
        self.assertEqual(["the pragma pack in unit.c changes what a compiler does and is passed over here",
                          "the pragma omp in unit.c changes what a compiler does and is passed over here"],
                         self.analysed(text)["units"][0]["notes"])

    def test_unknown_options_are_told(self):
        self.write("good.c", GOOD)
        output = self.run_driver("-fwrapv", "good.c")[1]
        self.assertIn("note: good.c: options that are not looked at: -fwrapv\n", output)


@unittest.skipUnless(shutil.which("gcc"), "gcc is not here")
class Predefined(unittest.TestCase):
    """The predefined macros have the text that gcc gives them."""

    def test_against_gcc(self):
        for model, options, signed in (("lp64", [], True), ("ilp32", ["-m32"], True),
                                       ("lp64", ["-funsigned-char"], False)):
            done = subprocess.run(["gcc", "-std=gnu17", "-dM", "-E", *options, "-x", "c", "/dev/null"],
                                  stdout=subprocess.PIPE, check=True, text=True)
            theirs = dict((line.split(" ", 2)[1:] + [""])[:2] for line in done.stdout.splitlines())
            ours = {**data_macros(model_of(model, signed)), **language_macros("201710L")}
            self.assertEqual({name: theirs.get(name) for name in ours}, ours)


if __name__ == "__main__":
    unittest.main()
