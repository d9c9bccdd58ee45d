"""Own declarations of library functions, which ccheck refuses, taken out of a file's text."""
from ccheck_tools.c_pieces import KEYWORDS, QUALIFIERS, STORAGE_WORDS, TYPE_WORDS, declarator_of, split_at

BEFORE = ("{", "}", ";")


def edit_piece(piece, edits, names):
    """Takes the declarations of the functions `names` out of a piece. Returns the names that were taken out."""
    if piece.body is None:
        return edit_declarators(piece.head, edits, names)
    return edit_body(piece.body, edits, names)


def edit_body(body, edits, names):
    """Takes out declarations in blocks: they begin with a word of a type or with `extern`."""
    taken, at = [], 0
    while at < len(body) - 1:
        at += 1
        one = body[at]
        if body[at - 1].text not in BEFORE or one.text not in TYPE_WORDS | STORAGE_WORDS | QUALIFIERS:
            continue
        end = next((it for it in range(at, len(body)) if body[it].text in (";", "{", "}", "=")), None)
        if end is not None and body[end].text == ";" and any(it.text in names for it in body[at:end]):
            taken += edit_declarators(body[at:end + 1], edits, names)
    return taken


def edit_declarators(tokens, edits, names):
    """Takes library functions out of one declaration; all of it where nothing else is declared."""
    if not tokens or tokens[-1].text != ";" or tokens[0].text == "typedef":
        return []
    parts = split_at(tokens[:-1], ",")
    found = [function_name(part, index == 0) for index, part in enumerate(parts)]
    taken = [name for name in found if name in names]
    if not taken:
        return []
    if len(taken) == len(parts):
        done = edits.blank(first_word(tokens, edits.text).start, tokens[-1].end)
    else:
        done = edits.allowed(tokens[0].start, tokens[-1].end) and blank_parts(parts, found, edits, names)
    return taken if done else []


def first_word(tokens, text):
    """Returns the token at which a declaration begins: a name on a line of its own before it may be a macro."""
    at = 0
    while (tokens[at].kind == "name" and tokens[at].text not in KEYWORDS and at + 2 < len(tokens)
           and tokens[at + 1].kind == "name" and "\n" in text[tokens[at].end:tokens[at + 1].start]):
        at += 1
    return tokens[at]


def function_name(part, first):
    """Returns the name that a declarator declares as a function, None where it does not."""
    if first:
        found = declarator_of(part)
        return found.name.text if found else None
    at = next((index for index, one in enumerate(part) if one.kind == "name"), None)
    if at is None or at + 1 >= len(part) or part[at + 1].text != "(":
        return None
    return part[at].text


def blank_parts(parts, found, edits, names):
    """Blanks some declarators of a list, each with one comma, and leaves the specifiers."""
    kept_before = False
    for index, (part, name) in enumerate(zip(parts, found)):
        if name not in names:
            kept_before = True
            continue
        start = part[0].start if index else first_declarator(part, name)
        if kept_before:
            edits.blank(parts[index - 1][-1].end, part[-1].end)
        else:
            edits.blank(start, parts[index + 1][0].start)
    return True


def first_declarator(part, name):
    """Returns where the declarator begins in the first part of a list, after the specifiers."""
    at = next(index for index, one in enumerate(part) if one.text == name)
    while at and part[at - 1].text == "*":
        at -= 1
    return part[at].start
