"""The stub functions compared with the C library here: the same values on a thousand inputs, built by gcc."""
import os
import shutil
import subprocess
import tempfile
import unittest

from driver_helpers import DriverTest
from ccheck_tools.library import BUILT_IN, stub_folder, stub_functions
from ccheck_tools.reports import RULES

INPUTS = 1000
CHARACTERS = "isxdigit isprint ispunct iscntrl isgraph isblank isascii toascii".split()
NUMBERS = {"abs": "int", "labs": "long", "llabs": "long long", "ffs": "int"}
BITS = ("popcount", "parity", "clz", "ctz")
FROM_INPUT = frozenset("rand random srand srandom getenv fgetc getc ungetc fputc putc fputs fflush fclose feof ferror "
                       "clearerr rewind fopen fwrite fread perror time strerror".split())

BEGIN = r"""
#define _GNU_SOURCE
#include <ctype.h>
#include <limits.h>
#include <stdio.h>
#include <stdlib.h>
#include <string.h>
#include <strings.h>
static unsigned long long state = 88172645463325252ull;
static unsigned long long next(void) { state ^= state << 13; state ^= state >> 7; state ^= state << 17; return state; }
static int below(int n) { return (int)(next() % (unsigned long long)n); }
static char a[40], b[40], set[8], c[90], d[90];
static int sign(int n) { return (n > 0) - (n < 0); }
static void text(char *s, int room, const char *letters)
{
    int i, n = below(room);
    for (i = 0; i < n; i++) s[i] = letters[below((int)strlen(letters))];
    s[n] = 0;
}
static const char *number(void)
{
    static const char *some[] = {"", "-", "+", " \t-12x", "0x", "0xg", "0x1F", "-0X7fffffff", "9223372036854775807",
        "-9223372036854775808", "9223372036854775808", "-9223372036854775809", "18446744073709551615", "-1", "077",
        "08",
        "18446744073709551616", "99999999999999999999", "-99999999999999999999", "zz", "  +0", "\v\f\r7", "1 2"};
    if (below(4)) { text(a, 19, "0123456789"); return a; }
    return some[below(sizeof some / sizeof *some)];
}
static void prepare(void) { text(a, 40, "abcABC\xe9 "); text(b, 40, "abcABC\xe9 "); text(set, 8, "abC "); }
#define SAME(x, y) do { if ((x) != (y)) { printf("%s differs\n", name); return 1; } } while (0)
"""
END = r"""
int main(void)
{
    int failed = 0, i, f;
    for (f = 0; f < (int)(sizeof tests / sizeof *tests); f++)
        for (i = 0; i < INPUTS; i++)
            if (tests[f]()) { failed = 1; break; }
    return failed;
}
"""

BODIES = {
    "memcmp": "int n = below(40); prepare(); if (below(2)) memcpy(b, a, 40); SAME(sign(stub_memcmp(a, b, n)), "
              "sign(memcmp(a, b, n)));",
    "bcmp": "int n = below(40); prepare(); if (below(2)) memcpy(b, a, 40); SAME(!stub_bcmp(a, b, n), !bcmp(a, b, n));",
    "memchr": "int n = below(40), x = \"abcZ\"[below(4)]; prepare(); SAME(stub_memchr(a, x, n), memchr(a, x, n));",
    "mempcpy": "prepare(); SAME(stub_mempcpy(c, a, 9), (void *)(c + 9)); SAME(memcmp(c, a, 9), 0);",
    "bcopy": "prepare(); memcpy(c, a, 40); memcpy(d, a, 40); stub_bcopy(c, c + 3, 20); bcopy(d, d + 3, 20); "
             "SAME(memcmp(c, d, 40), 0);",
    "bzero": "int n = below(40); memset(c, 7, 90); memset(d, 7, 90); stub_bzero(c, n); bzero(d, n); "
             "SAME(memcmp(c, d, 90), 0);",
    "stpcpy": "prepare(); SAME(stub_stpcpy(c, a), c + strlen(a)); SAME(strcmp(c, a), 0);",
    "strchr": "int x = \"abcZ\\0\\xe9\"[below(6)]; prepare(); SAME(stub_strchr(a, x), strchr(a, x));",
    "index": "int x = \"abcZ\\0\\xe9\"[below(6)]; prepare(); SAME(stub_index(a, x), index(a, x));",
    "strrchr": "int x = \"abcZ\\0\\xe9\"[below(6)]; prepare(); SAME(stub_strrchr(a, x), strrchr(a, x));",
    "rindex": "int x = \"abcZ\\0\\xe9\"[below(6)]; prepare(); SAME(stub_rindex(a, x), rindex(a, x));",
    "strstr": "prepare(); b[below(4)] = 0; SAME(stub_strstr(a, b), strstr(a, b));",
    "strspn": "prepare(); SAME(stub_strspn(a, set), strspn(a, set));",
    "strcspn": "prepare(); SAME(stub_strcspn(a, set), strcspn(a, set));",
    "strpbrk": "prepare(); SAME(stub_strpbrk(a, set), strpbrk(a, set));",
    "strncmp": "int n = below(50); prepare(); if (below(2)) strncpy(b, a, below(40)); "
               "SAME(sign(stub_strncmp(a, b, n)), sign(strncmp(a, b, n)));",
    "strcoll": "prepare(); if (below(2)) strcpy(b, a); SAME(sign(stub_strcoll(a, b)), sign(strcoll(a, b)));",
    "strcasecmp": "int i; prepare(); if (below(2)) for (i = 0; (b[i] = toupper((unsigned char)a[i])) != 0; i++); "
                  "SAME(sign(stub_strcasecmp(a, b)), sign(strcasecmp(a, b)));",
    "strncasecmp": "int i, n = below(50); prepare(); if (below(2)) for (i = 0; (b[i] = toupper((unsigned char)a[i])) "
                   "!= 0; i++); SAME(sign(stub_strncasecmp(a, b, n)), sign(strncasecmp(a, b, n)));",
    "strncat": "int n = below(50); prepare(); strcpy(c, a); strcpy(d, a); SAME(stub_strncat(c, b, n), c); "
               "strncat(d, b, n); SAME(strcmp(c, d), 0);",
    "strnlen": "int n = below(50); prepare(); SAME(stub_strnlen(a, n), strnlen(a, n));",
    "strdup": "char *s; prepare(); s = stub_strdup(a); SAME(strcmp(s, a), 0); free(s);",
    "strndup": "char *s, *t; int n = below(50); prepare(); s = stub_strndup(a, n); t = strndup(a, n); "
               "SAME(strcmp(s, t), 0); free(s); free(t);",
    "strtok": "char *s, *t; prepare(); strcpy(c, a); strcpy(d, a); s = stub_strtok(c, set); t = strtok(d, set); "
              "for (;;) { SAME(s == NULL, t == NULL); if (s == NULL) break; SAME(s - c, t - d); SAME(strcmp(s, t), 0); "
              "s = stub_strtok(NULL, set); t = strtok(NULL, set); } SAME(memcmp(c, d, 40), 0);",
    "atoi": "text(a, 10, \"0123456789\"); sprintf(b, \"%s%s%s\", below(2) ? \" \" : \"\", "
            "below(2) ? \"-\" : \"\", a); SAME(stub_atoi(b), atoi(b));",
    "atol": "text(a, 18, \"0123456789\"); sprintf(b, \"%s%s\", below(2) ? \"+\" : \"-\", a); "
            "SAME(stub_atol(b), atol(b));",
    "atoll": "text(a, 18, \"0123456789\"); sprintf(b, \"%s%s\", below(2) ? \"\\t+\" : \"-\", a); "
             "SAME(stub_atoll(b), atoll(b));",
}
for _name in ("strtol", "strtoll", "strtoul", "strtoull"):
    BODIES[_name] = (f"const char *s = number(); char *x, *y; static const int bases[] = {{0, 10, 16, 8, 2, 36, 11}}; "
                     f"int base = bases[below(7)]; SAME(stub_{_name}(s, &x, base), {_name}(s, &y, base)); "
                     f"SAME(x - s, y - s); SAME(stub_{_name}(s, NULL, base), {_name}(s, NULL, base));")
for _name in CHARACTERS:
    _form = "{0}(x)" if _name == "toascii" else "!{0}(x)"
    BODIES[_name] = f"int x = below(257) - 1; SAME({_form.format('stub_' + _name)}, {_form.format(_name)});"
for _name, _type in NUMBERS.items():
    BODIES[_name] = f"{_type} x = ({_type})(next() >> below(64)); SAME(stub_{_name}(x), {_name}(x));"
for _suffix, _type in (("", "unsigned int"), ("l", "unsigned long"), ("ll", "unsigned long long")):
    for _bits in BITS:
        _whole = f"__builtin_{_bits}{_suffix}"
        BODIES[_whole] = (f"{_type} x = ({_type})(next() >> below(64)); if (x == 0) x = 1; "
                          f"SAME(stub_{_whole}(x), {_whole}(x));")
for _suffix, _type in (("l", "long"), ("ll", "long long")):
    BODIES[f"__builtin_ffs{_suffix}"] = (f"{_type} x = ({_type})(next() << below(64)); "
                                         f"SAME(stub___builtin_ffs{_suffix}(x), __builtin_ffs{_suffix}(x));")
for _size, _type in ((16, "unsigned short"), (32, "unsigned int"), (64, "unsigned long long")):
    BODIES[f"__builtin_bswap{_size}"] = (f"{_type} x = ({_type})next(); "
                                         f"SAME(stub___builtin_bswap{_size}(x), __builtin_bswap{_size}(x));")


def text_of_stub(path, names):
    """Returns the text of a stub with all names of stubs renamed, so that both can be in one program."""
    lines = [f"#define {name} stub_{name}" for name in names]
    with open(path, encoding="utf-8") as file:
        text = file.read()
    ends = [f"#undef {name}" for name in names]
    return "\n".join([*lines, text, *ends]) + "\n"


def harness(functions):
    """Returns a C program that compares all stubs of `BODIES` with the library."""
    text = BEGIN + f"#define INPUTS {INPUTS}\n"
    for name, path in sorted(functions.items()):
        if name in BODIES:
            text += text_of_stub(path, ["isxdigit", name] if name.startswith("strto") else [name])
    for name, body in BODIES.items():
        text += f"static int test_{name}(void) {{ const char *name = \"{name}\"; {body} return 0; }}\n"
    tests = ", ".join(f"test_{name}" for name in BODIES)
    return text + f"static int (*tests[])(void) = {{ {tests} }};\n" + END


class Stubs(DriverTest):
    """Stub functions and stub headers."""

    def setUp(self):
        super().setUp()
        self.functions = stub_functions(stub_folder())

    def test_each_stub_has_a_test(self):
        self.assertEqual(set(self.functions), set(BODIES) | FROM_INPUT)
        self.assertEqual(set(), set(self.functions) & BUILT_IN)

    @unittest.skipUnless(shutil.which("gcc"), "gcc is not here")
    def test_values_against_the_library(self):
        with tempfile.TemporaryDirectory() as folder:
            source = os.path.join(folder, "harness.c")
            with open(source, "w", encoding="utf-8") as file:
                file.write(harness(self.functions))
            build = ["gcc", "-w", "-O1", "-fno-builtin", "-fsanitize=undefined", "-I",
                     os.path.join(stub_folder(), "functions"), source, "-o", source + ".out"]
            subprocess.run(build, check=True)
            done = subprocess.run([source + ".out"], stdout=subprocess.PIPE, stderr=subprocess.STDOUT, check=False)
            self.assertEqual((b"", 0), (done.stdout, done.returncode))

    def test_each_stub_is_accepted(self):
        for model in ("lp64", "ilp32", "llp64"):
            text = "".join(f'#include "functions/{name}.c"\n' for name in sorted(self.functions))
            text = ("#define CCHECK_SIZE unsigned long long\n" if model == "llp64" else "") + text
            text += "#include <stdio.h>\n#include <stdlib.h>\n#include <string.h>\n#include <strings.h>\n" \
                    "#include <ctype.h>\n#include <time.h>\nint main(void) { return 0; }\n"
            self.write("all.c", text)
            done = subprocess.run([self.program, "check", "all.c", stub_folder(), "--model", model], cwd=self.folder,
                                  stdout=subprocess.PIPE, check=False)
            self.assertEqual(b"0 diagnostics in all.c\n", done.stdout)

    def test_each_header_is_accepted(self):
        names = [os.path.relpath(os.path.join(at, name), stub_folder()) for at, _, names in os.walk(stub_folder())
                 for name in names if name.endswith(".h") and not at.endswith("functions")]
        self.assertIn("stdint.h", names)
        for model in ("lp64", "ilp32", "llp64"):
            self.write("all.c", "".join(f"#include <{name}>\n" for name in sorted(names) if name != "iso646.h")
                       + "int main(void) { return 0; }\n")
            done = subprocess.run([self.program, "check", "all.c", stub_folder(), "--model", model], cwd=self.folder,
                                  stdout=subprocess.PIPE, check=False)
            self.assertEqual(b"0 diagnostics in all.c\n", done.stdout)

    @unittest.skipUnless(shutil.which("gcc"), "gcc is not here")
    def test_stdint_against_gcc(self):
        """Sizes and limits of <stdint.h> are those of the compiler."""
        lines = []
        for bits in (8, 16, 32, 64):
            for kind in ("int", "uint"):
                sign = "<" if kind == "int" else ">"
                lines += [f"sizeof({kind}{bits}_t) == {bits // 8}", f"({kind}{bits}_t)-1 {sign} 0"]
                lines += [f"sizeof({kind}_fast{bits}_t) == {self.size_by_gcc(f'{kind}_fast{bits}_t')}"]
            lines += [f"INT{bits}_MAX == {2 ** (bits - 1) - 1}u", f"INT{bits}_MIN + INT{bits}_MAX == -1",
                      f"UINT{bits}_MAX == {2 ** bits - 1}u"]
        text = "#include <stdint.h>\nint main(void) {\n" + "".join(f"1 / ({it});\n" for it in lines) + "return 0; }\n"
        self.assertEqual([], self.found(text))

    def size_by_gcc(self, name):
        """Returns the size of a type of <stdint.h> here."""
        if not hasattr(self, "sizes"):
            names = [f"{kind}_fast{bits}_t" for kind in ("int", "uint") for bits in (8, 16, 32, 64)]
            source = self.write("sizes.c", "#include <stdint.h>\n" + "".join(
                f"char size_{it}[sizeof({it})];\n" for it in names))
            subprocess.run(["gcc", "-c", source, "-o", source + ".o"], check=True)
            listed = subprocess.run(["nm", "-S", source + ".o"], stdout=subprocess.PIPE, check=True, text=True).stdout
            self.sizes = {line.split()[3][5:]: int(line.split()[1], 16) for line in listed.splitlines()}
        return self.sizes[name]


class StubsByCcheck(DriverTest):
    """What ccheck reports of right and of wrong uses."""

    def test_right_uses(self):
        for call in ("strchr(line, 10) == NULL", "strrchr(line, 10) == NULL", "strstr(line, \"ab\") == NULL",
                     "strspn(line, \"ab\") > 3", "strcspn(line, \"ab\") > 3", "strpbrk(line, \"ab\") == NULL",
                     "memcmp(line, \"abcd\", 5) == 0", "memchr(line, 10, 80) == NULL", "strcasecmp(line, \"ab\") == 0",
                     "strnlen(line, 80) > 3", "isxdigit((unsigned char)line[0])", "abs(line[0]) > 3",
                     "bcmp(line, \"abcd\", 5) == 0"):
            with self.subTest(call):
                text = "#include <stdio.h>\n#include <string.h>\n#include <strings.h>\n#include <ctype.h>\n" \
                       "#include <stdlib.h>\nint main(void) { char line[80] = \"\";\n" \
                       f"if (fgets(line, 80, stdin) == NULL) return 1;\nreturn {call}; }}\n"
                self.assertEqual([], self.found(text))

    def test_wrong_uses(self):
        for call, rule in (("strchr(0, 'a') == 0", "nullref"), ("memcmp(\"abc\", \"abc\", 9)", "invptr"),
                           ("memchr(line, 'a', 81) == 0", "invptr"), ("strstr(raw, \"a\") == 0", "nonnullcs"),
                           ("isxdigit(-300)", "chrsgnext"), ("abs(-2147483647 - 1)", "intoflow"),
                           ("strdup(raw) == 0", "nonnullcs"), ("*strchr(line, 'a')", "nullref")):
            with self.subTest(call):
                text = f"#include <string.h>\n#include <ctype.h>\n#include <stdlib.h>\n" \
                       f"int main(void) {{ char line[80] = \"\"; char raw[4];\nreturn {call}; }}\n"
                self.assertIn(rule, {it.split()[1] for it in self.found(text)} & set(RULES))

    def test_assertion_ends_the_run(self):
        text = "#include <assert.h>\nint f(int n) { assert(n > 0); return 1 / n; }\n"
        self.assertEqual([], self.found(text))
        self.assertEqual(["2:40 diverr"], self.found(text, "-DNDEBUG"))

    def test_errno_is_any_number(self):
        text = "#include <errno.h>\nint main(void) { errno = 0; return 1 / (errno - 2 ? 1 : 0); }\n"
        self.assertEqual(["2:38 diverr"], [it for it in self.found(text) if "diverr" in it])


if __name__ == "__main__":
    unittest.main()
