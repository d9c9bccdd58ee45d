"""Attributes of GNU C: which of them a unit has, and which change what the unit means."""
from ccheck_tools.c_pieces import group_end, split_at
from ccheck_tools.c_tokens import TOKEN, Lines, Token
from ccheck_tools.predefined import ATTRIBUTE_WORDS, MEANING_CHANGED


def attributes_of(source):
    """Returns the names of the attributes in a file, without underscores, each with a place `FILE:LINE`."""
    found, lines = {}, None
    for tokens in [source.tokens, *(retold(it) for it in source.tokens if it.kind == "directive")]:
        for at, one in enumerate(tokens):
            if one.kind == "name" and one.text in ATTRIBUTE_WORDS:
                lines = lines or Lines(source.text)
                for name in names_in(tokens, at + 1):
                    name = "aligned object" if name == "aligned" and is_object(tokens, at) else name
                    found.setdefault(name, f"{source.shown}:{lines.place(one.start)[0]}")
    return found


def is_object(tokens, at):
    """Says whether an attribute of alignment is one of an object or a function, and so changes no size."""
    if tokens[0].start == tokens[-1].start:     # a directive: where its text is used is not known
        return False
    depth = 0
    for index in range(at - 1, -1, -1):
        text = tokens[index].text
        depth += (text == "}") - (text == "{")
        if text in ("struct", "union", "typedef") and depth <= 0 or depth < 0 and is_struct_brace(tokens, index):
            return False
        if depth == 0 and text == ";":
            return enclosing_is_block(tokens, index)
    return True


def enclosing_is_block(tokens, at):
    """Says whether the braces round a token, if any, are those of a block and not of a struct."""
    depth = 0
    for index in range(at, -1, -1):
        depth += (tokens[index].text == "}") - (tokens[index].text == "{")
        if depth < 0:
            return not is_struct_brace(tokens, index)
    return True


def is_struct_brace(tokens, at):
    """Says whether a `{` begins the members of a struct."""
    return any(it.text in ("struct", "union", "enum") for it in tokens[max(at - 2, 0):at])


def retold(directive):
    """Returns the tokens within a directive, all with the directive's place."""
    return [Token(it.lastgroup, it[0], directive.start, directive.end) for it in TOKEN.finditer(directive.text)
            if it.lastgroup not in ("space", "comment", "newline")]


def names_in(tokens, opening):
    """Returns the names in `((a, b(1)))`."""
    if opening + 1 >= len(tokens) or tokens[opening].text != "(" or tokens[opening + 1].text != "(":
        return []
    end = group_end(tokens, opening + 1)
    inside = tokens[opening + 2:end] if end else []
    return [part[0].text.strip("_") for part in split_at(inside, ",") if part and part[0].kind == "name"]


def changing(names, dropped):
    """Returns those attributes that change what a unit means and that the user has not asked to drop."""
    if "all" in dropped:
        return []
    return sorted(it for it in names if it in MEANING_CHANGED and it not in dropped)
