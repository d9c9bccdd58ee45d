"""What is rewritten in the copies of a unit's files: old-style definitions, own declarations, places as numbers."""
import dataclasses
import os

from ccheck_tools import old_style, own_declarations
from ccheck_tools.c_pieces import declarator_of
from ccheck_tools.c_tokens import Lines


@dataclasses.dataclass(frozen=True)
class Assumption:
    """A sentence on what a report assumes; `file` and `line` say where, "" and 0 where it is of the whole unit."""
    sentence: str
    file: str = ""
    line: int = 0

    def as_text(self):
        """Returns the sentence with its place before it."""
        return f"{self.file}:{self.line}: {self.sentence}" if self.file else self.sentence


def rewrite(sources, facts, library):
    """Makes the edits of all files of a unit. `library` has the names whose own declarations are taken out."""
    told = []
    parameters, library = facts.parameters(), library - facts.macros
    for source in sources.files.values():
        lines = Lines(source.text)
        implicit = old_style.implicit_declarations(source.pieces, source.edits, facts.declarations, parameters)
        told += [Assumption(it, source.shown, lines.place(one.start)[0]) for one, it in implicit]
        for piece in source.pieces:
            line = lines.place(piece.head[0].start if piece.head else 0)[0]
            taken = own_declarations.edit_piece(piece, source.edits, library)
            sentences = [f"the own declaration of {name} is taken out; it is a function of the library"
                         for name in dict.fromkeys(taken)]
            if not facts.is_macro_call(piece):
                sentences += old_style_edits(piece, source.edits, parameters)
            told += [Assumption(it, source.shown, line) for it in sentences]
            told += [Assumption(it, source.shown, lines.place(one.start)[0])
                     for one, it in old_style.edit_objects(piece, source.edits)]
            told += name_functions(source, piece, lines)
        told += number_lines(source, lines)
        source.finish()
    return told


def old_style_edits(piece, edits, parameters):
    """Makes a piece in the old style new and returns sentences on it."""
    definition = old_style.edit_definition(piece, edits)
    return ([definition] if definition else []) + old_style.edit_declaration(piece, edits, parameters)


def number_lines(source, lines):
    """Puts the number of the line in place of __LINE__, and a literal in place of __FILE__, outside of directives."""
    told = []
    for one in source.tokens:
        if one.text not in ("__LINE__", "__FILE__"):
            continue
        line = lines.place(one.start)[0]
        source.edits.replace(one.start, one.end, f"{line:8}" if one.text == "__LINE__" else literal(source.shown))
        told.append(Assumption(f"{one.text} is read as its value", source.shown, line))
    return told


def name_functions(source, piece, lines):
    """Puts a literal with the function's name in place of __func__ and of its second names in GNU C."""
    told = []
    found = declarator_of(piece.head) if piece.body is not None else None
    for one in piece.body or []:
        if found and one.text in ("__func__", "__FUNCTION__", "__PRETTY_FUNCTION__"):
            source.edits.replace(one.start, one.end, f'"{found.name.text}"')
            told.append(Assumption(f"{one.text} is read as a literal", source.shown, lines.place(one.start)[0]))
    return told


def literal(name):
    """Returns a file name as a string literal of C."""
    return '"' + byte_text(name).replace("\\", "\\\\").replace('"', '\\"') + '"'


def byte_text(name):
    """Returns a name of the command line with one character a byte, as texts of files are kept."""
    return os.fsencode(name).decode("latin-1")
