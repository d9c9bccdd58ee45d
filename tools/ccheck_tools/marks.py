"""A copy of a unit with marks, by which a run of the copy shows what code it reached.

A mark is an expression that changes no object and takes no draw. It moves a pointer by 0, and the 0 comes from unsigned
arithmetic that wraps, so it has a label: `replay` prints `taintsink` at the mark and the run goes on. Marks are put at
the start of blocks, round conditions, between operands of && and ||, and after the labels of a switch. A comparison of
a name with a constant gets marks that say how near the two are. The copy is used for the search only: each run that is
found is taken again on the unit itself.
"""
import os
import re
from typing import NamedTuple

HEAD = ("static char ccheck_marked[1];\n"
        "#define CCHECK_REACHED (ccheck_marked + (0u - 1u + 1u), 1)\n"
        "#define CCHECK_PASSED (ccheck_marked + (0u - 1u + 1u), 0)\n"
        "#define CCHECK_NEAR (ccheck_marked + (0u - 1u + 1u), 1)\n")
HEAD_LINES = HEAD.count("\n")
TRUE, FALSE, CLOSE = "CCHECK_REACHED", "CCHECK_PASSED", "CCHECK_NEAR"
COMPARED = ("==", "!=", "<", "<=", ">", ">=")
NEAR = (1, 3, 10, 30, 100, 300)
TOKEN = re.compile(
    r"""(?P<space>\s+|//[^\n]*|/\*.*?\*/|\\\n)"""
    r"""|(?P<text>"(?:\\.|[^"\\\n])*"|'(?:\\.|[^'\\\n])*')"""
    r"""|(?P<word>[A-Za-z_]\w*)|(?P<number>\.?\d\w*)|(?P<sign>&&|\|\||<<=|>>=|->|\+\+|--|[-+*/%&|^<>=!]=|<<|>>|.)""",
    re.S)
DIRECTIVE = re.compile(r"[ \t]*#(?:[^\n\\]|\\\n|\\.)*", re.S)
INCLUDE = re.compile(r'([ \t]*#[ \t]*include[ \t]*")([^"\n]+)(".*)', re.S)


class Token(NamedTuple):
    """A token, white space, a comment or a directive."""
    kind: str
    text: str


def tokens_of(text):
    """Splits a text into tokens; directives are one token each."""
    found, at, is_line_start = [], 0, True
    while at < len(text):
        directive = DIRECTIVE.match(text, at) if is_line_start else None
        if directive:
            found.append(Token("directive", directive[0]))
        else:
            match = TOKEN.match(text, at)
            found.append(Token(match.lastgroup, match[0]))
        at += len(found[-1].text)
        is_line_start = found[-1].kind == "space" and (is_line_start or "\n" in found[-1].text)
    return found


class Marker:
    """Puts marks into the tokens of one file."""

    def __init__(self, tokens, is_graded=True):
        self.tokens, self.is_graded = tokens, is_graded
        self.solid = [number for number, it in enumerate(tokens) if it.kind not in ("space", "directive")]
        self.before, self.after = {}, {}

    def text_at(self, place):
        """The text of the solid token number `place`, or nothing past the ends."""
        return self.tokens[self.solid[place]].text if 0 <= place < len(self.solid) else ""

    def put_before(self, place, text):
        """Puts a text before a token, after what was put there earlier."""
        self.before[self.solid[place]] = self.before.get(self.solid[place], "") + text

    def put_after(self, place, text):
        """Puts a text after a token, after what was put there earlier."""
        self.after[self.solid[place]] = self.after.get(self.solid[place], "") + text

    def mate(self, place):
        """The place of the bracket that closes the one at `place`, or None."""
        depth = 0
        for at in range(place, len(self.solid)):
            depth += (self.text_at(at) in "([{") - (self.text_at(at) in ")]}")
            if depth == 0:
                return at
        return None

    def mark(self):
        """Puts all marks."""
        blocks = []
        for place in range(len(self.solid)):
            text = self.text_at(place)
            if text == "{":
                self.open(place, blocks)
            elif text == "}" and blocks:
                blocks.pop()
            elif blocks and blocks[-1]:
                self.mark_code(place, text)

    def open(self, place, blocks):
        """Opens a block, or braces that contain no statements."""
        before = self.text_at(place - 1)
        is_code = before in (")", "else", "do") or bool(blocks) and blocks[-1] and before in (";", "{", "}", ":")
        blocks.append(is_code)
        if is_code:
            self.put_after(place, f" {TRUE};")

    def mark_code(self, place, text):
        """Puts the marks of one token of a statement."""
        if text in ("if", "while") and self.text_at(place + 1) == "(":
            self.mark_condition(place + 2, self.mate(place + 1))
        elif text == "for" and self.text_at(place + 1) == "(":
            self.mark_for(place + 1)
        elif text in ("case", "default"):
            self.mark_case(place)
        elif text == "&&" and not self.is_in_case(place):
            self.put_after(place, f" {TRUE} &&")
        elif text == "||" and not self.is_in_case(place):
            self.put_after(place, f" {FALSE} ||")
        elif self.is_graded and self.text_at(place + 1) in COMPARED:
            self.mark_comparison(place)

    def mark_comparison(self, place):
        """Puts marks before a comparison of a name with a constant, one for each distance."""
        name, sign, constant = (self.text_at(at) for at in range(place, place + 3))
        is_whole = self.text_at(place - 1) in ("(", "&&", "||") and self.text_at(place + 3) in (")", "&&", "||")
        if not (is_whole and re.fullmatch(r"[A-Za-z_]\w*", name) and re.fullmatch(r"'[^']+'|[1-9]\d{0,5}", constant)
                or is_whole and sign not in ("==", "!=") and constant == "0") or self.is_in_case(place):
            return
        grades = "".join(f"({name} >= {constant} - {near} && {name} <= {constant} + {near} && {CLOSE}), " for near in NEAR)
        self.put_before(place, f"({grades}")
        self.put_after(place + 2, ")")

    def mark_condition(self, first, end):
        """Puts marks before a condition and after one that is true."""
        if end is not None and end > first:
            self.put_before(first, f"{TRUE} && (")
            self.put_before(end, f") && {TRUE}")

    def mark_for(self, place):
        """Puts marks round the condition of a `for`."""
        end, depth, signs = self.mate(place), 0, []
        for at in range(place, end or place):
            depth += (self.text_at(at) in "([{") - (self.text_at(at) in ")]}")
            if depth == 1 and self.text_at(at) == ";":
                signs.append(at)
        if len(signs) == 2 and signs[1] > signs[0] + 1:
            self.mark_condition(signs[0] + 1, signs[1])

    def mark_case(self, place):
        """Puts a mark after the colon of a label of a switch."""
        asked = 0
        for at in range(place, len(self.solid)):
            asked += self.text_at(at) == "?"
            if self.text_at(at) == ":":
                if not asked:
                    self.put_after(at, f" {TRUE};")
                    return
                asked -= 1

    def is_in_case(self, place):
        """Whether a token is in the constant of a label."""
        for at in range(place, max(place - 30, -1), -1):
            if self.text_at(at) in ("case", "enum"):
                return True
            if self.text_at(at) in (";", "{", "}", ":"):
                return False
        return False

    def text(self):
        """The text with its marks."""
        return "".join(self.before.get(at, "") + it.text + self.after.get(at, "") for at, it in enumerate(self.tokens))


def marked_text(text):
    """Returns the text of a file with marks."""
    marker = Marker(tokens_of(text))
    marker.mark()
    return marker.text()


def mark_places(text, names=(TRUE, FALSE, CLOSE)):
    """Returns the places of the marks of a text: lines and columns in bytes."""
    return {(number, found.start() + 1) for number, line in enumerate(text.split("\n"), 1)
            for found in re.finditer("|".join(names), line)}


class MarkedUnit:
    """Writes marked copies of a unit and of the headers that it includes by quotes, and knows their places."""

    def __init__(self, unit, folder, directories, is_graded=True):
        self.folder, self.directories, self.is_graded = folder, directories, is_graded
        self.names, self.marks, self.grades, self.text = {}, set(), set(), ""
        self.path = self.copy(os.path.realpath(unit), unit, HEAD)

    def copy(self, path, name, head=""):
        """Writes the copy of one file; returns its path."""
        if path in self.names:
            return os.path.join(self.folder, self.names[path][0])
        short = f"marked{len(self.names)}.c"
        self.names[path] = (short, name)
        with open(path, encoding="latin-1", newline="") as file:
            text = file.read().replace("\r\n", "\n")
        self.text += text
        tokens = [self.included(it, path, name) if it.kind == "directive" else it for it in tokens_of(text)]
        marker = Marker(tokens, self.is_graded)
        marker.mark()
        made = head + marker.text()
        target = os.path.join(self.folder, short)
        with open(target, "w", encoding="latin-1") as file:
            file.write(made)
        self.marks |= {(target, *it) for it in mark_places(made) - mark_places(head)}
        self.grades |= {(target, *it) for it in mark_places(made, (CLOSE,))}
        return target

    def included(self, token, path, name):
        """Returns a directive that includes the copy of a header, where there is a file of that name."""
        found = INCLUDE.fullmatch(token.text)
        for folder in [os.path.dirname(path), *self.directories] if found else ():
            header = os.path.realpath(os.path.join(folder, found[2]))
            if os.path.isfile(header):
                shown = os.path.join(os.path.dirname(name), found[2])
                return Token("directive", f"{found[1]}{os.path.basename(self.copy(header, shown))}{found[3]}")
        return token

    def copied_place(self, pair):
        """Returns the copy that has a place of the unit, and the line there; None where the file is not copied."""
        path = os.path.realpath(pair.file)
        if path not in self.names:
            return None
        target = os.path.join(self.folder, self.names[path][0])
        return target, pair.line + (HEAD_LINES if target == self.path else 0)

    def reached(self, pairs):
        """Returns the marks among the pairs of a run of the copy, and all other pairs."""
        marks, others = set(), set()
        for it in pairs:
            if (it.file, it.line, it.column) in self.marks and it.rule == "taintsink":
                marks.add((it.file, it.line, it.column))
            else:
                others.add(it)
        return marks, others
