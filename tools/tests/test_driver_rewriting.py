"""What ccheck-cc rewrites in the copies of a unit's files, and that places stay."""
import unittest

from driver_helpers import DriverTest
from ccheck_tools.c_pieces import declarator_of, pieces_of, text_of
from ccheck_tools.c_tokens import Lines, tokens_of
from ccheck_tools.edits import Edits

QUICK = True


class Tokens(unittest.TestCase):
    """The lexer."""

    def kinds(self, text):
        """Returns the kinds and texts of tokens."""
        return [(it.kind, it.text) for it in tokens_of(text)]

    def test_comments_literals_and_continued_lines(self):
        text = 'in\\\nt a = \'\\\'\'; /* "x */ char *s = "/* no */\\"";// end \\\n still\n1.5e+3 x'
        self.assertEqual([("name", "int"), ("name", "a"), ("punct", "="), ("char", "'\\''"), ("punct", ";"),
                          ("name", "char"), ("punct", "*"), ("name", "s"), ("punct", "="),
                          ("string", '"/* no */\\""'), ("punct", ";"), ("number", "1.5e+3"), ("name", "x")],
                         self.kinds(text))

    def test_directives(self):
        found = tokens_of("#define A /* x\n y */ 1 \\\n + 2\n # if 0\nx # y\n#error can't\n")
        self.assertEqual(["directive", "directive", "name", "punct", "name", "directive"], [it.kind for it in found])
        self.assertEqual("#define A   1 + 2", found[0].text)

    def test_offsets(self):
        text = "/* */ in\\\nt main\\\n(void)"
        self.assertEqual(["in\\\nt", "main", "(", "void", ")"], [text[it.start:it.end] for it in tokens_of(text)])
        self.assertEqual((2, 3), Lines(text).place(tokens_of(text)[1].start))


class EditsOfText(unittest.TestCase):
    """Edits keep lines, and places come back."""

    def test_places(self):
        edits = Edits("int f(a, b)\nint a;\nchar b; { return a; }\nint y;")
        self.assertTrue(edits.replace(6, 10, "int a, char b"))
        self.assertTrue(edits.blank(12, 26))
        edits.insert(41, "long ")
        edited = edits.applied()
        self.assertEqual("int f(int a, char b)\n      \n        { return a; }\nlong int y;",
                         edited.text.replace("\r", ""))
        self.assertEqual([(1, 1), (1, 7), (1, 11), (3, 9), (4, 1), (4, 5)],
                         [edited.original_place(*it) for it in
                          ((1, 1), (1, 12), (1, 20), (3, 9), (4, 6), (4, 10))])

    def test_no_overlap_and_no_directive(self):
        edits = Edits("abc\n#if 1\ndef\n")
        self.assertFalse(edits.replace(0, 12, ""))
        self.assertTrue(edits.replace(0, 2, "x"))
        self.assertFalse(edits.replace(1, 3, "y"))


class Pieces(unittest.TestCase):
    """Declarations and definitions at file scope."""

    def names(self, text):
        """Returns the functions of a text: names, parameters, and whether there is a body."""
        found = [(declarator_of(it.head), it) for it in pieces_of(tokens_of(text))]
        return [(one.name.text, text_of(one.parameters), it.body is not None) for one, it in found if one]

    def test_functions(self):
        for text, expected in (
                ("static int f(int a) { { } }", ("f", "int a", True)),
                ("char *f(void);", ("f", "void", False)),
                ("__attribute__((noinline)) int f(a, b) int a; char b; { }", ("f", "a , b", True)),
                ("main() { }", ("main", "", True)),
                ("extern \"C\" int a;\nint f P((int, char *));", ("f", "int , char *", False)),
                ("void *f P2((a, b), int a, int b) { }", ("f", "int a , int b", True)),
                ("int f(int a)\n#if X\n{ }\n#else\n{ { }\n#endif\nint g(void) { }", ("f", "int a", True))):
            with self.subTest(text):
                self.assertIn(expected, self.names(text))

    def test_no_functions(self):
        for text in ("int (*f)(int);", "int a[] = { 1, 2 };", "struct s { int x; } y;", "typedef int t;",
                     "#if 0\nint f(void) { }\n#endif", "#ifdef __cplusplus\nint f(void) { }\n#endif"):
            with self.subTest(text):
                self.assertEqual([], self.names(text))


class Rewriting(DriverTest):
    """Units that are accepted after rewriting, with the places of the text as it is written."""

    def test_old_style_definition(self):
        text = "int f(a, b)\n  int a;\n  char *b;\n{ return a / (b[0] - b[0]); }\nmain() { return f(1, \"x\"); }\n"
        self.assertEqual(["4:12 diverr"], self.found(text))
        told = self.assumed(text)
        self.assertIn("unit.c:1: the old-style definition of f is read with the parameters (int a, char * b)", told)
        self.assertIn("unit.c:5: the definition of main has no type and is read as int", told)

    def test_columns_in_a_line_with_a_definition(self):
        text = "f(a) int a; { return 1 / a; } int main(void) { return f(0); }\n"
        self.assertEqual(["1:24 diverr"], self.found(text))

    def test_old_style_declaration(self):
        self.assertEqual([], self.found("int f(); int main(void) { return f(1); } int f(int a) { return a; }"))

    def test_call_before_the_definition(self):
        text = "int main(void) { return f(1); }\nint f(a) { return a; }\n"
        self.assertIn("f is called before its definition", self.assumed(text))

    def test_own_declarations(self):
        text = ("extern void abort(void), exit(int);\nchar *strcpy(), *mine(char *a);\n"
                "char *mine(char *a) { return a; }\n"
                "int main(void) { int puts(const char *); void exit(int); puts(mine(\"\")); exit(0); }\n")
        self.assertEqual([], self.found(text))
        self.assertIn("unit.c:2: the own declaration of strcpy is taken out", self.assumed(text))

    def test_a_definition_of_a_library_function_stays(self):
        word, reason = self.refused("int abs(int n) { return n; }\nvoid abort(void) { }\nint main(void) { return 0; }")
        self.assertEqual("Redeclared", word)
        self.assertIn("abort is a function of the library", reason)

    def test_macros_between_declarations(self):
        text = ("#define EACH ONE(1)\n#define ONE(n) int one(void) { return n; }\nEACH\n#undef ONE\n"
                "extern void abort(void);\nint main(void) { return one(); }\n")
        self.assertEqual([], self.found(text))

    def test_line_file_and_function(self):
        text = ("#include <stdio.h>\n#define WHERE __FILE__\nint main(void) {\n"
                "  printf(\"%s %s %d\", WHERE, __func__, __LINE__); return 1 / (__LINE__ - 4); }\n")
        self.assertEqual(["4:59 diverr"], self.found(text))

    def test_attributes(self):
        text = "static __inline__ int __attribute__((noinline, unused)) f(void) { return 1; }\n" \
               "char buffer[4] __attribute__((aligned(16)));\nint main(void) { return f(); }\n"
        self.assertEqual([], self.found(text))
        self.assertIn("attributes are left out: aligned object, noinline, unused", self.assumed(text))

    def test_attributes_that_change_the_meaning(self):
        text = "struct s { char c; int i; } __attribute__((packed));\nint main(void) { return 0; }\n"
        word, reason = self.refused(text)
        self.assertEqual("Unsupported __attribute__", word)
        self.assertIn("the attribute packed (unit.c:1) changes what the unit means", reason)
        self.assertEqual([], self.found(text, "--drop-attribute", "packed"))
        self.assertEqual("Unsupported __attribute__", self.refused(
            "struct s { char c; int i __attribute__((aligned(8))); };\nint main(void) { return 0; }\n")[0])

    def test_volatile(self):
        text = "volatile int x; int main(void) { return x; }\n"
        self.assertEqual("Unsupported volatile", self.refused(text)[0])
        self.assertEqual([], self.found(text, "--drop-volatile"))
        self.assertIn("volatile is left out", self.assumed(text, "--drop-volatile"))

    def test_predefined_macros(self):
        text = ("#if __INT_MAX__ == 2147483647 && __SIZEOF_LONG__ == 8 && __BYTE_ORDER__ == __ORDER_LITTLE_ENDIAN__\n"
                "#if __STDC_VERSION__ >= 201112L\n__SIZE_TYPE__ n;\n_Static_assert(1, \"one\");\n"
                "int main(void) { return n; }\n#endif\n#endif\n")
        self.assertEqual([], self.found(text))
        self.assertIn("macros that a compiler predefines: __BYTE_ORDER__, __INT_MAX__, ", self.assumed(text))

    def test_a_macro_that_the_unit_defines_itself(self):
        text = "#define __attribute__(x)\n#define __inline\nint __inline __attribute__((y)) main(void) { return 0; }\n"
        self.assertEqual([], self.found(text))

    def test_no_statement_is_left_out(self):
        self.assertEqual("Unsupported asm", self.refused("int main(void) { asm(\"nop\"); return 0; }")[0])
        self.assertEqual("Syntax", self.refused("int main(void) { int f(int); return 0; }")[0])


if __name__ == "__main__":
    unittest.main()
