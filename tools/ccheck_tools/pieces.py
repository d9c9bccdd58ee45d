"""What a unit's text says of the inputs that matter to it: numbers, characters and strings near its tests."""
import re

ENDS = [-1, 0, 1, 2, 127, 128, 255, 2 ** 15 - 1, 2 ** 15, 2 ** 16, 2 ** 31 - 1, 2 ** 31, 2 ** 32 - 1, -2 ** 31,
        2 ** 63 - 1, -2 ** 63, -2, 3, 10, 100]
ESCAPES = {"n": "\n", "t": "\t", "r": "\r", "0": "\0", "a": "\a", "b": "\b", "f": "\f", "v": "\v"}
LIKELY = b"\n 0123456789-+aAzZ.,;:()\t\x80\xff\x00"
LONGEST = 5000


def unescaped(text):
    """Returns the characters of a literal without its quotes."""
    def one(match):
        word = match[1]
        if word[0] == "x":
            return chr(int(word[1:] or "0", 16) % 256)
        return chr(int(word, 8) % 256) if word.isdigit() else ESCAPES.get(word, word)
    return re.sub(r"\\(x[0-9a-fA-F]*|[0-7]{1,3}|.)", one, text)


def without_comments(text):
    """Returns a text of C without its comments."""
    return re.sub(r"/\*.*?\*/|//[^\n]*", " ", text, flags=re.S)


def number_of(text):
    """Returns the value of an integer constant, or None."""
    digits = text.lower().rstrip("ul")
    try:
        return int(digits, 8) if re.fullmatch("0[0-7]+", digits) else int(digits, 0)
    except ValueError:
        return None


class Pieces:
    """The numbers of a text with their neighbours, its characters, its strings, and the lengths near its numbers.

    Macros whose names begin with __ do not count: they are the data model's.
    """

    def __init__(self, text):
        text = re.sub(r"^[ \t]*#[ \t]*define[ \t]+__[^\n]*", "", without_comments(text), flags=re.M)
        named = [ord(it[-1:]) for it in map(unescaped, re.findall(r"'((?:\\.[0-9a-fA-F]*|[^'\\\n]))'", text)) if it]
        whole = [it for it in map(number_of, re.findall(r"(?<![\w.])0[xX][\da-fA-F]+\w*|(?<![\w.])\d{1,19}[uUlL]*", text))
                 if it is not None]
        self.numbers = sorted({near for it in named + whole for near in (it - 1, it, it + 1, -it)}) or [0]
        self.characters = sorted({it for it in self.numbers if 0 <= it <= 255 and it in named} |
                                 {near for it in named for near in (it - 1, it, it + 1) if 0 <= near <= 255})
        found = [unescaped(it).encode("latin-1", "replace") for it in re.findall(r'"((?:\\.|[^"\\\n])*)"', text)]
        self.strings = sorted({it for it in found if it and not it.endswith((b".h", b".c")) and b"%" not in it}, key=len)
        self.lengths = sorted({near for it in whole for near in (it - 2, it - 1, it, it + 1) if 0 < near <= LONGEST})

    def words(self):
        """Pieces of input that the unit may look for: its strings and its numbers in decimal, shortest first."""
        return self.strings + [str(it).encode() for it in sorted(self.numbers, key=abs) if abs(it) < 2 ** 63]
