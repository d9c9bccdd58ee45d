"""The pages on rules and refusals: where they are, and their sections."""
import os
import re

from ccheck_tools import reports

PLACES = (("docs",), ("..", "doc", "ccheck", "docs"))


class PageMissing(Exception):
    """A page is not installed; the message says where it was looked for."""


def find_page(name):
    """Returns the path of a page: in docs/ of the tree, or in share/doc next to share/ccheck."""
    tree = os.path.dirname(reports.TOOLS)
    paths = [os.path.normpath(os.path.join(tree, *place, name)) for place in PLACES]
    for path in paths:
        if os.path.isfile(path):
            return path
    raise PageMissing(f"there is no {name} (looked for {', '.join(paths)})")


def link_to(name, anchor):
    """Returns the path of a page with an anchor, as short as it can be, or nothing where the page is missing."""
    try:
        path = find_page(name)
    except PageMissing:
        return ""
    near = os.path.relpath(path)
    return f"{near if not near.startswith('..') else path}#{anchor}"


def sections(name):
    """Returns the sections of a page by their headings in small letters; the text of each begins with its heading."""
    with open(find_page(name), encoding="utf-8") as file:
        text = file.read()
    found, at, fence = {}, None, False
    for line in text.split("\n"):
        fence ^= line.startswith("```")
        heading = None if fence else re.fullmatch(r"##+ (.+)", line)
        if heading:
            at = heading[1].strip("`").lower()
            found[at] = []
        if at is not None:
            found[at].append(line)
    return {heading: "\n".join(lines).strip() + "\n" for heading, lines in found.items()}


def explained(word):
    """Returns the section of the page on a rule, or on a word of a refusal; None where there is none."""
    for name in ("rules.md", "refusals.md"):
        found = sections(name).get(word.lower())
        if found:
            return found
    return None
