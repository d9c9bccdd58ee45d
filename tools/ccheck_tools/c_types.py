"""Kinds of the types of parameters and results: integer, void, pointer, struct, or something else."""
import re

from ccheck_tools.c_pieces import OPEN, QUALIFIERS, STORAGE_WORDS, split_at, text_of
from ccheck_tools.predefined import EMPTIED, RENAMED

INTEGER_WORDS = {"char", "short", "int", "long", "signed", "unsigned", "__signed__", "__signed"}
OTHER_WORDS = {"float", "double", "_Bool", "_Complex", "_Atomic", "union", "__int128"}
LIBRARY_INTEGERS = re.compile(r"(u?int(_least|_fast)?(8|16|32|64)_t|u?intmax_t|u?intptr_t|s?size_t|ptrdiff_t|bool"
                              r"|time_t|clock_t|off_t|mode_t|[pugi]id_t|ino_t|dev_t|__U?(INT|SIZE|PTRDIFF)\w*_TYPE__)")


class Types:
    """The typedefs of a unit, to find what kind of type a declaration has."""

    def __init__(self, sources):
        self.typedefs = {}
        for source in sources.all_files():
            for piece in source.pieces:
                if piece.body is None and any(it.text == "typedef" for it in piece.head[:3]):
                    self.read_typedef(piece.head[:-1])

    def read_typedef(self, tokens):
        """Takes the names of one typedef declaration."""
        parts = split_at([it for it in tokens if it.text != "typedef"], ",")
        spec, first = split_declaration(parts[0])
        for declarator in [first, *parts[1:]]:
            name = declared_name(declarator)
            if name:
                self.typedefs[name] = (spec, declarator)

    def kind(self, spec, declarator, depth=0):
        """Returns the kind of a declaration: "integer", "void", "pointer", "struct" or "other"."""
        texts = [it.text for it in declarator]
        if "(" in texts or depth > 32:
            return "other"
        if "*" in texts or "[" in texts:
            return "pointer"
        words = [it.text for it in spec if it.text not in STORAGE_WORDS | QUALIFIERS]
        if any(it in OTHER_WORDS for it in words):
            return "other"
        if any(it in INTEGER_WORDS for it in words) or words[:1] == ["enum"]:
            return "integer"
        if words[:1] == ["struct"]:
            return "struct"
        if words == ["void"]:
            return "void"
        name = words[-1] if words else "int"
        if name in self.typedefs:
            return self.kind(*self.typedefs[name], depth + 1)
        return "integer" if LIBRARY_INTEGERS.fullmatch(name) or name == "int" else "other"

    def pointed(self, spec, declarator):
        """Returns the declaration of what a pointer points to, as specifiers and declarator, None where not plain."""
        texts = [it.text for it in declarator]
        if "(" in texts:
            return None
        if "[" in texts:
            at = texts.index("[")
            return spec, declarator[:at]
        if "*" in texts:
            at = texts.index("*")
            return spec, declarator[:at] + [it for it in declarator[at + 1:]]
        name = spec[-1].text if spec else ""
        if name in self.typedefs:
            return self.pointed(*self.typedefs[name])
        return None


def split_declaration(tokens):
    """Splits `const char *a[3]` into its specifiers and its declarator."""
    at, depth = 0, 0
    while at < len(tokens):
        one = tokens[at]
        if one.kind == "punct" and one.text in OPEN and (one.text == "{" or depth):
            depth += 1
        elif depth and one.text in OPEN.values():
            depth -= 1
        elif not depth and (one.kind == "punct" or last_name(tokens, at)):
            break
        at += 1
    return tokens[:at], tokens[at:]


def last_name(tokens, at):
    """Says whether a name is the declared one: it is the last name, and another type word is before it."""
    after = tokens[at + 1].text if at + 1 < len(tokens) else ""
    before = [it.text for it in tokens[:at] if it.text not in QUALIFIERS | STORAGE_WORDS]
    known = INTEGER_WORDS | OTHER_WORDS | QUALIFIERS | STORAGE_WORDS | {"void", "struct", "enum", *RENAMED, *EMPTIED}
    if tokens[at].text in known or not before or before[-1] in ("struct", "enum", "union"):
        return False
    return after in ("", "[", "(", ",", ":")


def declared_name(declarator):
    """Returns the name that a declarator declares, "" for an abstract one."""
    return next((it.text for it in declarator if it.kind == "name" and it.text not in QUALIFIERS), "")


def parameters_of(found):
    """Returns the parameters of a function declarator as pairs of specifiers and declarator; none for `void`."""
    if not found.parameters or text_of(found.parameters) == "void":
        return []
    return [split_declaration(part) for part in split_at(found.parameters, ",")]


def result_of(found):
    """Returns the result of a function declarator as a pair of specifiers and declarator."""
    return [it for it in found.spec if it.text not in STORAGE_WORDS], list(found.stars)


