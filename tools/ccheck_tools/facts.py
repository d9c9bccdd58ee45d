"""What the files of a unit say together: functions that are defined, declared and called, macros, words, conditions."""
import collections

from ccheck_tools.c_pieces import KEYWORDS, declarator_of, has_type, last_declarator, renamed, split_at
from ccheck_tools.c_tokens import line_tokens
from ccheck_tools.old_style import parameter_text


PRAGMAS = ("pack", "push_macro", "pop_macro", "weak", "redefine_extname", "scalar_storage_order", "omp")
NO_RETURN = ("noreturn", "__noreturn__", "_Noreturn")


class Facts:
    """Facts about all files of a unit; conditions are not evaluated, so all branches count."""

    def __init__(self, sources):
        self.definitions, self.declarations = {}, {}
        self.called, self.macros, self.conditions = set(), set(), {}
        self.words = collections.Counter()
        self.unnamed, self.bodies, self.no_return, self.objects = [], {}, set(), set()
        self.pragmas, self.function_macros = {}, set()
        for one in sources.stub_files.values():
            self.macros.update(one.macros())
        for one in sources.files.values():
            self.read_directives(one)
            self.words.update(one.words())
        for one in sources.all_files():
            self.read_pieces(one)
        self.make_functions = self.closure()

    def read_pieces(self, source):
        """Takes the functions of a file."""
        for piece in source.pieces:
            found = self.resolved(declarator_of(piece.head))
            if found is None and piece.body is not None:
                found = self.resolved(last_declarator(piece.head))
            if piece.body is not None:
                self.read_calls([(it.kind, it.text) for it in piece.body])
            elif found is None:
                if any(it.text == "extern" for it in piece.head[:1]):
                    self.objects.update(it.text for it in piece.head if it.kind == "name")
                continue
            elif any(it.text == "typedef" for it in found.spec):
                continue
            if found is None:
                self.unnamed.append((source, piece))
            elif piece.body is not None:
                self.definitions.setdefault(found.name.text, (piece, found, source))
            else:
                self.read_declarators(piece, found, source)

    def resolved(self, found):
        """Returns the declarator `int f P0()` as one of f, where P0 is a macro; None where no name is left."""
        name = found.name.text if found else ""
        if name not in self.macros or found.by_macro:
            return found
        last = found.spec[-1] if found.spec else None
        has_name = last is not None and last.text not in KEYWORDS and not found.stars
        if name not in self.function_macros and not (has_name and has_type(found.spec[:-1])):
            return found                # a macro that gives the function another name
        return renamed(found, []) if has_name else None

    def is_macro_call(self, piece):
        """Says whether a piece begins with the call of a macro, so that its text says little."""
        found = declarator_of(piece.head)
        return found is not None and found.name.text in self.function_macros

    def closure(self):
        """Returns the macros whose text, or that of a macro in it, has a brace, and so may define functions."""
        found = {name for name, words in self.bodies.items() if "{" in words}
        while True:
            more = {name for name, words in self.bodies.items() if name not in found and words & found}
            if not more:
                return found
            found |= more

    def read_declarators(self, piece, found, source):
        """Takes the functions of one declaration."""
        if any(it.text in NO_RETURN for it in piece.head):
            self.no_return.add(found.name.text)
        for index, part in enumerate(split_at(piece.head[:-1], ",")):
            one = found if index == 0 else self.resolved(declarator_of([*found.spec, *part]))
            if one is not None:
                self.declarations.setdefault(one.name.text, (one, source))

    def read_calls(self, tokens):
        """Takes the names that a parenthesis follows."""
        for (kind, text), (_, after) in zip(tokens, tokens[1:]):
            if kind == "name" and after == "(" and text not in KEYWORDS:
                self.called.add(text)

    def read_directives(self, source):
        """Takes macros and conditions of a file."""
        self.macros.update(source.macros())
        self.function_macros.update(source.function_macros())
        for name, rest in source.directives():
            if name == "define":
                tokens = line_tokens(rest)
                self.read_calls(tokens[1:])
                if tokens:
                    self.bodies.setdefault(tokens[0][1], set()).update(text for _, text in tokens[1:])
            elif name == "pragma" and first_word(rest) in PRAGMAS:
                self.pragmas.setdefault(first_word(rest), source.shown)
            elif name in ("if", "elif", "ifdef", "ifndef"):
                for kind, text in line_tokens(rest):
                    if kind == "name" and text.startswith("__"):
                        self.conditions.setdefault(text, source.shown)

    def parameters(self):
        """Returns the parameter lists of the functions that are defined, in the new style."""
        found = {name: parameter_text(piece) for name, (piece, _, _) in self.definitions.items()}
        return {name: text for name, text in found.items() if text is not None}


def first_word(rest):
    """Returns the first word of a pragma, such as `pack` of `pack(1)`."""
    return rest.partition("(")[0].strip().partition(" ")[0]
