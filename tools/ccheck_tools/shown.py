"""A report for people: the line of source, a caret below the place, the rule with a link, and a count."""
import collections
import os
import re

from ccheck_tools import refusal_words, rule_pages

NAME = re.compile(r"[A-Za-z_]\w*|\d\w*")
COLOURS = {"place": "1", "rule": "1;31", "refused": "1;35", "caret": "1;32", "number": "34", "note": "36"}
ENDS = {
    "ended": "the run returned from its entry, or called exit or abort",
    "violation": "the last step broke a rule that ends a run",
    "draws": "the run wanted a draw that was not there, or one in another range: what comes after is not shown",
    "left": "the run ended at a step that breaks no rule (docs/accepted-c.md lists these)",
    "steps": "the run did not end within --steps",
}


class Style:
    """Colours, or none of them."""

    def __init__(self, is_coloured):
        self.is_coloured = is_coloured

    def paint(self, kind, text):
        """Returns a text in the colour of its kind."""
        return f"\033[{COLOURS[kind]}m{text}\033[0m" if self.is_coloured else text


def is_coloured(stream, environment):
    """Whether a stream is a terminal that wants colours."""
    return stream.isatty() and not environment.get("NO_COLOR") and environment.get("TERM") != "dumb"


class Sources:
    """The lines of source files, read once."""

    def __init__(self, folder=""):
        self.folder, self.lines = folder, {}

    def line(self, file, number):
        """Returns a line as bytes, or None where it cannot be read."""
        if file not in self.lines:
            try:
                with open(os.path.join(self.folder, file), "rb") as opened:
                    self.lines[file] = opened.read().split(b"\n")
            except (OSError, ValueError):
                self.lines[file] = []
        lines = self.lines[file]
        return lines[number - 1].rstrip(b"\r") if 0 < number <= len(lines) else None


class Shown:
    """Makes the text of one report."""

    def __init__(self, style, sources):
        self.style, self.sources, self.linked = style, sources, set()

    def report(self, report):
        """Returns the whole report."""
        parts = [self.diagnostic(it) for it in report.diagnostics]
        if report.refusal:
            parts.append(self.refusal(report.refusal))
        if report.answer:
            parts.append(f"ccheck: {report.answer}\n")
        if report.end:
            note = self.style.paint("note", ENDS.get(report.end, ""))
            parts.append(f"end: {report.end}, {report.used} draws used: {note}\n")
        if report.unit is not None:
            parts.append(self.count(report))
        return "\n".join(parts)

    def diagnostic(self, one):
        """Returns a diagnostic with its line of source."""
        head = f"{self.place(one)}: {self.style.paint('rule', one.rule)}: {one.text}\n"
        return head + self.source(one) + self.help(one.rule, rule_pages.link_to("rules.md", one.rule))

    def place(self, one):
        """Returns the place of a diagnostic or a refusal."""
        return self.style.paint("place", f"{one.file}:{one.line}:{one.column}")

    def source(self, one):
        """Returns the line of source with a caret, or nothing where it cannot be read."""
        line = self.sources.line(one.file, one.line)
        if line is None:
            return ""
        before = line[:one.column - 1].decode("utf-8", "replace")
        rest = line[one.column - 1:].decode("utf-8", "replace")
        name = NAME.match(rest)
        mark = "^" + "~" * (len(name[0]) - 1 if name else 0)
        space = "".join("\t" if it == "\t" else " " for it in before)
        number = f"{one.line:5} | "
        text = printable(before + rest)
        return (f"{self.style.paint('number', number)}{text}\n"
                f"{self.style.paint('number', '      | ')}{space}{self.style.paint('caret', mark)}\n")

    def help(self, word, link):
        """Returns where a word is explained, once for each."""
        if word in self.linked:
            return ""
        self.linked.add(word)
        more = f", or see {link}" if link else ""
        return f"        help: ccheck-show explain {word}{more}\n"

    def refusal(self, one):
        """Returns a refusal or a limit with its line of source and its reason."""
        rest = f" {one.rest}" if one.rest else ""
        head = f"{self.place(one)}: {self.style.paint('refused', f'{one.kind}: {one.word}{rest}')}\n"
        why = self.reason(one)
        sentence = f"        {self.style.paint('note', why)}\n" if why else ""
        return head + self.source(one) + sentence + self.help(one.word, rule_pages.link_to("refusals.md", one.word.lower()))

    def reason(self, one):
        """Returns a sentence on a refusal."""
        if one.word == "Unsupported":
            return refusal_words.UNSUPPORTED.get(one.rest, f"{one.rest} is not accepted")
        if one.word == "Syntax":
            return ("the declaration or function that begins here has a form that is not accepted; "
                    "gcc -fsyntax-only finds a plain fault in it")
        if one.word == "Undeclared":
            line = self.sources.line(one.file, one.line) or b""
            name = NAME.match(line[one.column - 1:].decode("latin-1"))
            return f"{name[0] if name else 'a name'} has no declaration, or no definition in the unit or the library"
        return refusal_words.GENERAL.get(one.word, "")

    def count(self, report):
        """Returns the last line, with a count of each rule."""
        rules = collections.Counter(it.rule for it in report.diagnostics)
        total = sum(rules.values())
        each = ", ".join(f"{count} {rule}" for rule, count in rules.most_common())
        unit = f" in {report.unit}" if report.unit else ""
        return f"{total} diagnostic{'' if total == 1 else 's'}{unit}" + (f": {each}\n" if each else "\n")


def printable(text):
    """Returns a text without control characters that a terminal obeys; tabs stay."""
    return "".join(it if it == "\t" or it.isprintable() else "?" for it in text)
