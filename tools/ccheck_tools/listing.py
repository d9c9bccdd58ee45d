"""A source file as HTML: each line with its number, each place marked, each diagnostic below its line."""
import html
import re
from typing import NamedTuple

from ccheck_tools import reports

NAME = re.compile(rb"[A-Za-z_]\w*|\d\w*|&&|\|\||[-+*/%&|^<>=!]=|<<|>>|->|\+\+|--")
EXACT = ("boolasgn", "sizeofptr", "swtchdflt")


class Shown(NamedTuple):
    """A diagnostic, and the run that shows it: its input in words or None, its draws, or no run."""
    one: object
    text: str | None = None
    draws: tuple | None = None

    @property
    def kind(self):
        """The class of the diagnostic on a page."""
        return "exact" if self.one.rule in EXACT else "open" if self.draws is None else "seen"


class Refused(NamedTuple):
    """The place at which a unit is refused, and the sentence on it."""
    one: object
    why: str
    kind: str = "not"


def refused(text):
    """Returns the place of a refusal or a limit that begins a text, or None."""
    found = reports.REFUSAL.match(text)
    if not found:
        return None
    one = reports.Refusal(found["file"], int(found["line"]), int(found["column"]), found["kind"], found["word"], "")
    return Refused(one, text[found.start("kind"):].split("\n")[0])


def quoted(data):
    """Returns input as the text of a C literal."""
    names = {10: "\\n", 9: "\\t", 13: "\\r", 0: "\\0", 34: '\\"', 92: "\\\\"}
    return '"' + "".join(names.get(it, chr(it) if 32 <= it < 127 else f"\\x{it:02x}") for it in data) + '"'


def input_of(world):
    """Returns the input of a world in words, or None where the entry has arguments or there is no world."""
    if world is None or world.numbers:
        return None
    text = shortened(quoted(world.text))
    return f"{text}, as lines without their ends" if world.is_bare else text


def shortened(text, most=160):
    """Returns a text that is cut in its middle where it is long."""
    return text if len(text) <= most else f"{text[:most * 2 // 3]} .. {text[-most // 4:]}"


def token_end(line, at):
    """Returns where the token that begins at a byte ends."""
    found = NAME.match(line, at)
    return found.end() if found else min(at + 1, len(line))


def marked_line(line, shown):
    """Returns a line of source as HTML with its places marked."""
    places = {}
    for it in shown:
        at = min(it.one.column - 1, len(line))
        best = places.get(at)
        places[at] = it.kind if best is None or it.kind == "seen" else best
    made, done = [], 0
    for at in sorted(places):
        if at < done:
            continue
        end = token_end(line, at)
        made += [decoded(line[done:at]), f'<mark class="{places[at]}">{decoded(line[at:end]) or " "}</mark>']
        done = end
    return "".join([*made, decoded(line[done:])])


def decoded(data):
    """Returns bytes of source as HTML."""
    return html.escape(data.decode("utf-8", "replace"))


def remark(shown, has_searched):
    """Returns the lines on one diagnostic, or on a refusal."""
    one = shown.one
    if shown.kind == "not":
        return f'{html.escape(shown.why)} <span class="at">column {one.column}</span>'
    head = (f'<a class="rule" href="rules.html#{one.rule}">{one.rule}</a> {html.escape(one.text)}'
            f' <span class="at">column {one.column}</span>')
    if shown.kind == "exact":
        return head + '<div class="more">A rule on the text: it is broken here.</div>'
    if shown.kind == "open":
        return head + ('<div class="more">No run was found that shows it. It may be a false alarm.</div>'
                       if has_searched else "")
    numbers = shortened(" ".join(map(str, shown.draws))) or "no draws"
    text = f"A run shows it, over the input <code>{html.escape(shown.text)}</code>" \
        if shown.text is not None else "A run shows it"
    return head + f'<div class="more">{text}<br>Draws: <code>{numbers}</code></div>'


def file_section(name, data, shown, has_searched):
    """Returns the section of a page on one file."""
    lines = {}
    for it in shown:
        lines.setdefault(it.one.line, []).append(it)
    rows = []
    for number, line in enumerate(data.rstrip(b"\n").split(b"\n"), 1):
        here = lines.get(number, [])
        rows.append(f'<tr{row_class(here)}><td class="number" id="{html.escape(name)}-{number}">{number}</td>'
                    f"<td><pre>{marked_line(line, here) or ' '}</pre></td></tr>")
        rows += [f'<tr><td></td><td class="remark {it.kind}">{remark(it, has_searched)}</td></tr>' for it in here]
    return f'<h2>{html.escape(name)}</h2>\n<table class="listing">' + "\n".join(rows) + "</table>\n"


def row_class(shown):
    """Returns the class of a line by the diagnostics that it has."""
    if not shown:
        return ""
    kinds = {it.kind for it in shown}
    return f' class="{next(it for it in ("seen", "open", "exact", "not") if it in kinds)}"'
