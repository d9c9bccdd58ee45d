"""Edits of a text that keep its lines, with a way back from places of the edited text to places of the original."""
import bisect
import re

from ccheck_tools.c_tokens import Lines


DIRECTIVE = re.compile(r"\n[ \t]*#")


class Edits:
    """A list of replacements in one text. They may not overlap, nor touch a directive; one that does is left out."""

    def __init__(self, text):
        self.text = text
        self.pieces = {}

    def allowed(self, start, end):
        """Says whether the text from start to end may be replaced."""
        if DIRECTIVE.search(self.text, start, end):
            return False
        return not any(start < other_end and other_start < end
                       for other_start, (other_end, _) in self.pieces.items())

    def replace(self, start, end, new):
        """Puts `new` in place of the text from start to end. Its lines stay as many as they were."""
        if not self.allowed(start, end):
            return False
        missing = self.text.count("\n", start, end) - new.count("\n")
        self.pieces[start] = (end, new + "\n" * missing)
        return True

    def blank(self, start, end):
        """Puts blanks in place of the text from start to end, so that all places around it stay."""
        return self.replace(start, end, "".join(it if it in "\r\n" else " " for it in self.text[start:end]))

    def insert(self, at, new):
        """Puts `new` before an offset, after what was put there already."""
        end, old = self.pieces.get(at, (at, ""))
        self.pieces[at] = (end, old + new if end == at else new + old)

    def applied(self):
        """Returns the edited text."""
        return Edited(self)


class Edited:
    """An edited text, and where its places come from."""

    def __init__(self, edits):
        self.original = Lines(edits.text)
        self.starts, self.origins, parts, at, length = [], [], [], 0, 0
        for start, (end, new) in sorted(edits.pieces.items()):
            for origin, part, kept in ((at, edits.text[at:start], True), (start, new, False)):
                self.starts.append(length)
                self.origins.append((origin, kept))
                parts.append(part)
                length += len(part)
            at = end
        self.starts.append(length)
        self.origins.append((at, True))
        parts.append(edits.text[at:])
        self.text = "".join(parts)
        self.lines = Lines(self.text)

    def original_place(self, line, column):
        """Returns the place of the original text from which a place of the edited text comes."""
        offset = self.lines.offset(line, column)
        if offset is None:
            return line, column
        index = bisect.bisect_right(self.starts, offset) - 1
        origin, kept = self.origins[index]
        return self.original.place(origin + (offset - self.starts[index] if kept else 0))
