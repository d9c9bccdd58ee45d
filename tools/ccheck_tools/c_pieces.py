"""Declarations and function definitions at file scope, found in the tokens of a file without running the preprocessor.

All branches of a condition are looked at, except groups that no C compiler takes (`#if 0`, `#ifdef __cplusplus`).
A piece that has a condition among its tokens is marked as mixed, and no tool rewrites it.
"""
import dataclasses

from ccheck_tools.c_tokens import directive_parts

TYPE_WORDS = {"void", "char", "short", "int", "long", "signed", "unsigned", "float", "double", "_Bool", "_Complex",
              "struct", "union", "enum", "__signed__", "__signed", "__int128", "typeof", "__typeof__", "__typeof"}
STORAGE_WORDS = {"extern", "static", "register", "auto", "typedef", "inline", "__inline", "__inline__", "_Noreturn",
                 "__extension__", "_Thread_local", "__thread"}
QUALIFIERS = {"const", "volatile", "restrict", "__const", "__const__", "__volatile__", "__volatile", "__restrict",
              "__restrict__", "_Atomic"}
STATEMENT_WORDS = {"if", "else", "while", "do", "for", "switch", "case", "default", "return", "goto", "break",
                   "continue", "sizeof"}
GROUP_WORDS = {"__attribute__", "__attribute", "__asm__", "__asm", "asm", "__declspec"}
KEYWORDS = TYPE_WORDS | STORAGE_WORDS | QUALIFIERS | STATEMENT_WORDS | GROUP_WORDS
OPEN, CLOSE = {"(": ")", "[": "]", "{": "}"}, {")", "]", "}"}
PARAMETERS_BACK = 64


@dataclasses.dataclass
class Piece:
    """A declaration, whose tokens end with `;`, or a definition, whose head and body are kept apart."""
    head: list
    body: list | None = None    # the tokens from { to }
    mixed: bool = False


@dataclasses.dataclass
class Declarator:
    """A function declarator `STARS NAME ( PARAMETERS ) AFTER`, with what is written before it."""
    spec: list
    stars: list
    name: object
    opening: object
    closing: object
    parameters: list
    after: list
    by_macro: bool = False      # the parameters are arguments of a macro

    def old_style_names(self):
        """Returns the names of an identifier list, None where the parameters are not one."""
        return None if self.by_macro else identifier_list(self.parameters)


def live_tokens(tokens):
    """Leaves out the groups that no C compiler takes. Conditions of other groups stay among the tokens."""
    found, stack = [], []
    for one in tokens:
        name, rest = directive_parts(one) if one.kind == "directive" else ("", "")
        if name in ("if", "ifdef", "ifndef"):
            never = (name, rest.split("/*")[0].strip()) in NEVER
            always = (name, rest.strip()) in ALWAYS
            stack.append([never, always])
        elif name in ("else", "elif") and stack:
            stack[-1] = [stack[-1][1], False] if name == "else" else [False, False]
        if not any(never for never, _ in stack):
            found.append(one)
        if name == "endif" and stack:
            stack.pop()
    return found


NEVER = {("if", "0"), ("ifdef", "__cplusplus"), ("if", "defined(__cplusplus)"), ("if", "defined __cplusplus"),
         ("if", "defined (__cplusplus)")}
ALWAYS = {("if", "1"), ("ifndef", "__cplusplus"), ("if", "!defined(__cplusplus)")}


class Cutter:
    """Cuts tokens into pieces."""

    def __init__(self):
        self.pieces, self.head, self.body = [], [], None
        self.depth, self.mixed, self.saved = 0, False, []

    def directive(self, one):
        """Follows conditions: each branch begins at the depth at which its condition began."""
        name, _ = directive_parts(one)
        if name in ("if", "ifdef", "ifndef"):
            self.saved.append((self.depth, self.body is not None))
        elif name in ("else", "elif") and self.saved:
            self.depth = self.saved[-1][0]
        elif name == "endif" and self.saved:
            self.saved.pop()
        else:
            if self.depth == 0 and self.body is None and self.head and self.head[-1].text not in (",", ")"):
                self.end()
            return
        if self.head and self.body is None or self.saved and not self.saved[-1][1] and self.body is not None:
            self.mixed = True

    def take(self, one):
        """Takes the next token."""
        if one.kind == "directive":
            self.directive(one)
            return
        if one.text == "{" and self.depth == 0 and self.body is None and self.begins_body():
            self.body = []
        (self.head if self.body is None else self.body).append(one)
        if one.kind != "punct":
            return
        if one.text in OPEN:
            self.depth += 1
        elif one.text in CLOSE:
            self.depth = max(self.depth - 1, 0)
        if self.depth == 0 and (one.text == ";" and self.body is None or one.text == "}" and self.body is not None):
            self.end()

    def begins_body(self):
        """Says whether a `{` at depth 0 begins the body of a function."""
        if self.head:
            return self.head[-1].text == ")" or self.attributes_end()
        first = next((at for at in range(len(self.pieces) - 1, max(len(self.pieces) - PARAMETERS_BACK, 0) - 1, -1)
                      if self.is_old_style(self.pieces[at])), None)
        if first is None:
            return False
        taken, self.pieces = self.pieces[first:], self.pieces[:first]
        self.head = [one for piece in taken for one in piece.head]
        self.mixed = any(piece.mixed for piece in taken)
        return True

    def attributes_end(self):
        """Says whether the head ends with a word after a parameter list, such as a macro of attributes."""
        return self.head[-1].kind == "name" and any(one.text == ")" for one in self.head) and not any(
            one.text in ("=", "struct", "union", "enum") for one in self.head[-3:])

    @staticmethod
    def is_old_style(piece):
        """Says whether a piece is the head of an old-style definition with its first parameter declaration."""
        if piece.body is not None:
            return False
        found = declarator_of(piece.head)
        return found is not None and bool(found.old_style_names()) and bool(found.after)

    def end(self):
        """Ends the piece at hand."""
        self.pieces.append(Piece(self.head, self.body, self.mixed))
        self.head, self.body, self.mixed = [], None, False


def pieces_of(tokens):
    """Returns the pieces of a file, in order."""
    cutter = Cutter()
    for one in live_tokens(tokens):
        cutter.take(one)
    return cutter.pieces


def group_end(tokens, at):
    """Returns the index of the bracket that closes the one at `at`, None where there is none."""
    depth = 0
    for index in range(at, len(tokens)):
        if tokens[index].text in OPEN and tokens[index].kind == "punct":
            depth += 1
        elif tokens[index].text in CLOSE and tokens[index].kind == "punct":
            depth -= 1
            if depth == 0:
                return index
    return None


def split_at(tokens, text):
    """Splits tokens at a punctuator outside of brackets."""
    parts, depth = [[]], 0
    for one in tokens:
        if one.kind == "punct" and one.text in OPEN:
            depth += 1
        elif one.kind == "punct" and one.text in CLOSE:
            depth -= 1
        if depth == 0 and one.kind == "punct" and one.text == text:
            parts.append([])
        else:
            parts[-1].append(one)
    return parts


def identifier_list(tokens):
    """Returns the names of `a, b, c`, None where the tokens are not such a list or are empty."""
    names = []
    for part in split_at(tokens, ","):
        if len(part) != 1 or part[0].kind != "name" or part[0].text in KEYWORDS:
            return None
        names.append(part[0].text)
    return names or None


def without_groups(tokens):
    """Returns the indexes of tokens outside of attributes and assembler names."""
    kept, at = [], 0
    while at < len(tokens):
        if tokens[at].text in GROUP_WORDS:
            opening = at + 1
            end = group_end(tokens, opening) if opening < len(tokens) and tokens[opening].text == "(" else at
            at = (at if end is None else end) + 1
            continue
        kept.append(at)
        at += 1
    return kept


def declarator_of(tokens):
    """Returns the function declarator that the tokens of a head or of a declaration begin with, or None."""
    kept = without_groups(tokens)
    for position, index in enumerate(kept):
        one = tokens[index]
        if one.kind == "punct" and one.text not in ("*", "("):
            return None
        if one.text != "(":
            continue
        before = [tokens[it] for it in kept[:position]]
        closing = group_end(tokens, index)
        if closing is None or not before or before[-1].kind != "name" or before[-1].text in KEYWORDS:
            return None
        return checked_declarator(tokens, before, index, closing)
    return None


def last_declarator(tokens):
    """Returns the declarator at the end of a definition's head, where calls of macros may be before it, or None."""
    kept = without_groups(tokens)
    closing = kept[-1] if kept else -1
    opening = next((it for it in kept if tokens[it].text == "(" and group_end(tokens, it) == closing), None)
    if opening is None:
        return None
    start = kept.index(opening)
    while start and (tokens[kept[start - 1]].kind == "name" or tokens[kept[start - 1]].text == "*"):
        start -= 1
    return declarator_of([tokens[it] for it in kept[start:]])


def checked_declarator(tokens, before, opening, closing):
    """Makes a declarator where what is before the name can be a type and stars."""
    spec, stars = before[:-1], []
    while spec and (spec[-1].text == "*" or spec[-1].text in QUALIFIERS and any(it.text == "*" for it in spec)):
        stars.insert(0, spec.pop())
    parameters = tokens[opening + 1:closing]
    after = tokens[closing + 1:]
    if after and after[-1].text == ";" and len(split_at(after, ";")) == 2:
        after = after[:-1]
    if not plausible_spec(spec):
        return None
    found = Declarator(spec, stars, before[-1], tokens[opening], tokens[closing], parameters, after)
    return unwrapped(found) if parameters and parameters[0].text == "(" else found


def unwrapped(found):
    """Reads `int f P((int a))` and `int f P2((a, b), int a, int b)`, where P and P2 are macros of the unit."""
    inner = group_end(found.parameters, 0)
    if inner is None or found.stars or not found.spec or found.spec[-1].text in KEYWORDS:
        return None
    rest = found.parameters[inner + 1:]
    parameters = rest[1:] if rest else found.parameters[1:inner]
    return renamed(found, parameters)


def renamed(found, parameters):
    """Returns the declarator whose name is the last specifier: the name that was found is one of a macro."""
    spec, stars = found.spec[:-1], []
    while spec and spec[-1].text == "*":
        stars.insert(0, spec.pop())
    return Declarator(spec, stars, found.spec[-1], found.opening, found.closing, parameters, found.after, True)


def plausible_spec(spec):
    """Says whether tokens can be declaration specifiers: no name follows a type word, except a tag."""
    typed = False
    for index, one in enumerate(spec):
        if one.text == "*" and index + 1 < len(spec) and spec[-1].kind == "name":
            continue
        if one.kind != "name":
            return False
        if one.text in STATEMENT_WORDS:
            return False
        tag = index > 0 and spec[index - 1].text in ("struct", "union", "enum")
        if one.text in TYPE_WORDS:
            typed = True
        elif one.text not in KEYWORDS and typed and not tag and index + 1 < len(spec):
            return False
    return True


def has_type(spec):
    """Says whether specifiers name a type; a name that is not a word of C is taken for one."""
    return any(one.text in TYPE_WORDS or one.text not in KEYWORDS for one in spec)


def text_of(tokens):
    """Returns tokens as text, with a blank between them."""
    return " ".join(one.text for one in tokens)
