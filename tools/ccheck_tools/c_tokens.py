"""A lexer for C source text: comments, literals and continued lines are read as a compiler reads them.

Text is a `str` with one character a byte (Latin-1), so that offsets and columns count bytes.
"""
import bisect
import dataclasses
import re

SPLICE = re.compile(r"\\\r?\n")
TOKEN = re.compile(
    r"""(?P<newline>\n)
      | (?P<space>[ \t\r\v\f]+)
      | (?P<comment>/\*.*?\*/|//[^\n]*)
      | (?P<string>(?:u8|[uUL])?"(?:\\[^\n]|[^"\\\n])*")
      | (?P<char>[uUL]?'(?:\\[^\n]|[^'\\\n])*')
      | (?P<name>[A-Za-z_$][A-Za-z0-9_$]*)
      | (?P<number>\.?[0-9](?:[eEpP][+-]|[A-Za-z0-9_.])*)
      | (?P<punct><<=|>>=|\.\.\.|->|\+\+|--|<<|>>|<=|>=|==|!=|&&|\|\||[-+*/%&|^]=|\#\#|[-+*/%&|^~!=<>?:;,.(){}\[\]\#])
      | (?P<other>.)""",
    re.VERBOSE | re.DOTALL)


@dataclasses.dataclass(frozen=True)
class Token:
    """A token: `start` and `end` are offsets into the text of the file. The text of a directive is its whole line."""
    kind: str       # name, number, char, string, punct, other or directive
    text: str
    start: int
    end: int


class Splices:
    """Where continued lines were joined, to find offsets of the joined text in the text as it is written."""

    def __init__(self, text):
        self.joined_at, self.removed, total = [], [], 0
        for found in SPLICE.finditer(text):
            self.joined_at.append(found.start() - total)
            total += found.end() - found.start()
            self.removed.append(total)
        self.joined = SPLICE.sub("", text) if self.removed else text

    def written(self, offset):
        """Returns the written offset of a character of the joined text."""
        index = bisect.bisect_right(self.joined_at, offset)
        return offset + (self.removed[index - 1] if index else 0)

    def written_end(self, offset):
        """Returns the written offset after the character before `offset`."""
        return self.written(offset - 1) + 1 if offset else 0


def tokens_of(text):
    """Returns the tokens of a file: one token a directive, no blanks and no comments."""
    splices = Splices(text)
    found, line_start, directive = [], True, None
    for match in TOKEN.finditer(splices.joined):
        kind = match.lastgroup
        if directive is not None and kind != "newline":
            directive.append(match)
        elif kind == "newline":
            if directive:
                found.append(directive_token(directive, splices))
            line_start, directive = True, None
        elif kind in ("space", "comment"):
            continue
        elif line_start and match[0] == "#":
            directive = [match]
        else:
            line_start = False
            found.append(token(kind, match[0], match.start(), match.end(), splices))
    if directive:
        found.append(directive_token(directive, splices))
    return found


def token(kind, text, start, end, splices):
    """Makes a token with offsets of the text as it is written."""
    return Token(kind, text, splices.written(start), splices.written_end(end))


def directive_token(matches, splices):
    """Makes the token of a directive. Comments in it become a blank."""
    text = "".join(" " if it.lastgroup in ("comment", "space") else it[0] for it in matches)
    return token("directive", text.rstrip(), matches[0].start(), matches[-1].end(), splices)


def line_tokens(text):
    """Returns the tokens of one line of text, such as the rest of a directive, by kind and text."""
    return [(it.lastgroup, it[0]) for it in TOKEN.finditer(text) if it.lastgroup not in ("space", "comment", "newline")]


DIRECTIVE = re.compile(r"#\s*([a-z_]+)?\s*(.*)", re.DOTALL)


def directive_parts(one):
    """Returns the name of a directive, "" for the empty one, and the rest of its line."""
    found = DIRECTIVE.match(one.text)
    return found[1] or "", found[2]


class Lines:
    """Lines and columns of a text, both from 1; a column counts bytes."""

    def __init__(self, text):
        self.text = text
        self.starts = [0] + [it.end() for it in re.finditer("\n", text)]

    def place(self, offset):
        """Returns the line and the column of an offset."""
        line = bisect.bisect_right(self.starts, offset)
        return line, offset - self.starts[line - 1] + 1

    def offset(self, line, column):
        """Returns the offset of a place, or None where the text has no such line."""
        if not 1 <= line <= len(self.starts):
            return None
        return min(self.starts[line - 1] + column - 1, len(self.text))

    def line(self, number):
        """Returns the text of a line without its end, "" where there is none."""
        if not 1 <= number <= len(self.starts):
            return ""
        return self.text[self.starts[number - 1]:].split("\n", 1)[0].rstrip("\r")
