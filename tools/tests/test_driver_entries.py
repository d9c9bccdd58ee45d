"""Where ccheck-cc lets runs begin: main, main with argument strings, functions of a library; and stand-ins."""
import os
import unittest

from driver_helpers import DriverTest
from ccheck_tools.library import stub_folder

QUICK = True


class Entries(DriverTest):
    """Entries of a unit."""

    def test_argument_strings(self):
        text = ("#include <stdio.h>\nint main(int argc, char **argv) {\n  int i;\n"
                "  for (i = 1; i < argc; i++) puts(argv[i]);\n  return argv[argc][0];\n}\n")
        self.assertEqual(["5:20 nullref"], self.found(text))
        self.assertIn("main gets 0 to 2 argument strings of at most 31 characters", self.assumed(text))

    def test_number_and_length_of_arguments(self):
        text = "int main(int argc, char *argv[]) { if (argc > 2) return 1 / (argc - 3); return 0; }\n"
        self.assertEqual(["1:59 diverr"], self.found(text))
        self.assertEqual([], self.found(text, "--arguments", "1"))
        long = "int main(int c, char **v) { char a[20]; if (c > 1) strcpy(a, v[1]); return 0; }\n"
        self.assertEqual(["1:52 libptr"], self.found(long))
        self.assertEqual([], self.found(long, "--argument-length", "19"))

    def test_environment(self):
        self.assertEqual([], self.found("int main(int c, char **v, char **e) { return e[0] == 0; }\n"))
        self.assertEqual([], self.found("void main(c, v) int c; char **v; { puts(v[0]); }\n"))

    def test_functions_of_a_library(self):
        text = "int f(int n) { return 1 / n; }\nstatic int g(void) { return 1 / 0; }\nvoid h(unsigned n) { 1 / n; }\n"
        self.assertEqual(["1:25 diverr", "3:24 diverr"], self.found(text))
        self.assertEqual(["3:24 diverr"], self.found(text, "--entry", "h"))

    def test_pointer_parameters(self):
        text = "struct p { int x; char *s; };\n" \
               "int f(struct p *p, const char *s) { return p->s ? 1 : strlen(s) / p->x; }\n"
        word, reason = self.refused(text)
        self.assertEqual("NoEntry", word)
        self.assertIn("--objects passes fresh objects", reason)
        self.assertEqual(["2:65 diverr"], self.found(text, "--objects"))
        self.assertIn("pointers to fresh objects (1 element,", self.assumed(text, "--objects"))

    def test_number_of_elements(self):
        text = "int f(short *s) { return s[9]; }\n"
        self.assertEqual(["1:27 invptr"], self.found(text, "--objects"))
        self.assertEqual([], self.found(text, "--objects", "--object-count", "10"))

    def test_pointers_to_pointers(self):
        text = "int f(char **end, const char *const words[]) { *end = 0; return 1 / words[0][0] + words[1][0]; }\n"
        self.assertEqual(["1:67 diverr", "1:91 nullref"], self.found(text, "--objects"))
        self.assertEqual(["1:67 diverr"], self.found(text, "--objects", "--object-count", "2"))

    def test_typedefs_of_pointers(self):
        text = "typedef struct s { int n; } *handle;\nint f(handle h) { return 1 / h->n; }\n"
        self.assertEqual("NoEntry", self.refused(text)[0])
        self.assertEqual(["2:28 diverr"], self.found(text, "--objects"))

    def test_groups_that_are_not_taken(self):
        text = "#ifdef TEST\nint main(void) { return 1 / 0; }\n#endif\n#if 0\nint old(void) { }\n#endif\n" \
               "#ifdef WIN\nint gone(char *s) { return *s; }\n#endif\nint f(void) { return 0; }\n"
        report = self.analysed(text)["units"][0]
        self.assertTrue(report["accepted"])
        self.assertEqual(["main is in a group that is not taken here, and is not analysed",
                          "gone is in a group that is not taken here, and is not analysed"], report["notes"])
        self.assertEqual(["2:27 diverr"], self.found(text, "-DTEST"))

    def test_functions_that_macros_make(self):
        text = "#define MAKE(n) int n(int x) { return 1 / x; }\nMAKE(one)\nMAKE(two)\nint f(void) { return 0; }\n"
        self.assertIn("the macro MAKE in line 2 may define functions", self.refused(text)[1])
        self.assertEqual(["2:1 diverr"], self.found(text, "--entry", "one"))
        all_made = "#define MAKE(n) int n(int x) { return 1 / x; }\n#define ALL MAKE(a) MAKE(b)\nALL\nint x;\n"
        self.assertIn("the macro ALL in line 3 may define functions", self.refused(all_made)[1])

    def test_main_after_calls_of_macros(self):
        text = "#define MAKE(n) int n(int x) { return 1 / x; }\nMAKE(one)\nMAKE(two)\n" \
               "int main(void) { return two(0); }\n"
        self.assertEqual(["3:1 diverr"], self.found(text))

    def test_parameters_in_macros(self):
        text = "#define P(x) x\n#define P1(n, a) (a)\nint f P((int n));\nint f P1((n), int n) { return 1 / n; }\n"
        self.assertEqual(["4:33 diverr"], self.found(text))

    def test_macros_that_rename_functions(self):
        text = "#define f my_f\n#define g my_g\n" \
               "int f(int n) { return 1 / n; }\nint g(char *s) { return 1 / s[0]; }\n"
        self.assertEqual(["3:25 diverr", "4:27 diverr"], self.found(text, "--objects"))

    def test_no_function(self):
        self.assertEqual([], self.found("int table[3] = { 1, 2, 3 };\n"))
        self.assertIn("no run of it is looked at", self.assumed("int table[3] = { 1, 2, 3 };\n"))

    def test_an_entry_that_is_not_there(self):
        self.assertEqual("NoEntry", self.refused("int f(void) { return 0; }\n", "--entry", "nope")[0])


class StandIns(DriverTest):
    """Functions that are declared and called, and have no definition."""

    def test_numbers(self):
        text = "int level(char *name, int);\nint main(void) { return 1 / level(\"x\", 1); }\n"
        self.assertEqual(["2:27 diverr"], self.found(text))
        self.assertIn("level has no definition: it is read as a function that changes nothing and returns any number",
                      self.assumed(text))

    def test_nothing(self):
        text = "void hit(int [], unsigned char c[3]);\nint main(void) { hit(0, 0); return 0; }\n"
        self.assertEqual([], self.found(text))

    def test_functions_that_do_not_return(self):
        text = "void die(int) __attribute__((noreturn));\nint f(int n) { if (n < 1) die(1); return 1 / n; }\n"
        self.assertEqual([], self.found(text))
        self.assertIn("die has no definition: it is read as a function that ends the run", self.assumed(text))

    def test_pointers(self):
        text = "struct s { int n; };\nstruct s *make(void);\nint main(void) { return make()->n; }\n"
        word, reason = self.refused(text)
        self.assertEqual("Undeclared", word)
        self.assertIn("make has no definition and returns a pointer", reason)
        self.assertEqual(["3:31 nullref"], self.found(text, "--objects"))

    def test_functions_of_a_stub_header(self):
        text = "#include <unistd.h>\nint main(void) { return isatty(0) ? 1 / getpid() : 0; }\n"
        self.assertEqual(["2:39 diverr"], self.found(text))

    def test_own_definition_of_a_stub_function(self):
        text = "#include <string.h>\nstatic char *strchr(const char *s, int c) { return c ? 0 : (char *)s; }\n" \
               "int main(void) { return strchr(\"a\", 0) == 0; }\n"
        self.assertEqual([], self.found(text))
        self.assertNotIn("strchr is the stub", self.assumed(text))


    def test_the_place_of_a_diagnostic_in_a_stub(self):
        self.write("own/functions/strchr.c", "#error not this one\n")
        text = "#include <string.h>\nint main(void) { char a[2]; return strchr(a, 1) == 0; }\n"
        report = self.analysed(text, "-Iown")
        self.assertEqual([os.path.join(stub_folder(), "functions", "strchr.c")],
                         [it["file"] for it in report["diagnostics"]])

    def test_an_object_with_the_name_of_a_stub_function(self):
        text = "int index;\n#define AT(index) (index (3))\nint main(void) { return index; }\n"
        self.assertEqual([], self.found(text))
        self.assertEqual("", self.assumed(text))


class Replays(DriverTest):
    """--replay runs the units in place of analysing them."""

    def test_end(self):
        report = self.analysed("int main(void) { int i, s = 0; for (i = 0; i < 9; i++) s += i; return 1 / (s - 36); }",
                               "--replay")
        self.assertEqual([{"end": "violation", "entry": "main", "used": 0}], report["units"][0]["ends"])
        self.assertEqual(1, len(report["diagnostics"]))
        draws = self.write("draws.txt", "65\n")
        report = self.analysed("int main(void) { return getchar(); }", "--replay", "--draws", draws)
        self.assertEqual([{"end": "ended", "entry": "main", "used": 1}], report["units"][0]["ends"])


if __name__ == "__main__":
    unittest.main()
