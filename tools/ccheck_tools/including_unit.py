"""The including unit: a small C file with macros and stubs that includes the copy of the user's unit."""
import os
import urllib.parse

from ccheck_tools import predefined
from ccheck_tools.attributes import attributes_of, changing
from ccheck_tools.library import BUILT_IN
from ccheck_tools.rewriting import Assumption, byte_text, literal

UNIT = "unit.c"
BUILTIN = "__builtin_"


class Including:
    """Makes the text of the including unit, and keeps what it assumes."""

    def __init__(self, sources, facts, model, options, stubs):
        self.sources, self.facts, self.model, self.options, self.stubs = sources, facts, model, options, stubs
        self.told, self.kept_attributes = [], []
        self.left_out = set()       # macros of ours that the unit defines itself
        self.other_names = set()    # stubs whose names the unit has for something else
        self.macros = self.all_macros()

    def all_macros(self):
        """Returns the macros that go before the unit: texts of `#define` by name."""
        found = dict(predefined.data_macros(self.model))
        found.update(predefined.language_macros(self.sources.compilation.standard))
        words = self.facts.words
        used = sorted(it for it in found if words[it])
        if used:
            self.tell(f"macros that a compiler predefines: {', '.join(used)}")
        for word, text in predefined.RENAMED.items():
            if words[word]:
                found[word] = text
                self.tell(f"{word} is read as {text}")
        for word in predefined.EMPTIED:
            if words[word]:
                found[word] = ""
                self.tell(f"{word} is left out")
        self.attribute_macros(found)
        if words["_Static_assert"]:
            found["_Static_assert(a, b)"] = predefined.ASSERTION
            self.tell("_Static_assert is not looked at; the compiler has checked it")
        if self.options.drop_volatile and any(words[it] for it in ("volatile", "__volatile__", "__volatile")):
            found["volatile"] = ""
            self.tell("volatile is left out, so objects do not change by themselves")
        if words["__FILE__"]:
            found["__FILE__"] = literal(self.sources.unit.shown)
        self.builtin_macros(found)
        return found

    def attribute_macros(self, found):
        """Empties attributes, unless one of them changes what the unit means."""
        names = {}
        for source in self.sources.files.values():
            for name, place in attributes_of(source).items():
                names.setdefault(name, place)
        self.kept_attributes = [(it, names[it]) for it in changing(names, self.options.drop_attribute)]
        used = [it for it in predefined.ATTRIBUTE_WORDS if self.facts.words[it]]
        if not used or self.kept_attributes:
            return
        for word in used:
            found[f"{word}(a)"] = ""
        self.tell(f"attributes are left out: {', '.join(sorted(names)) or 'none that was found'}")

    def builtin_macros(self, found):
        """Gives GNU C's second names of library functions their first names."""
        for word in self.facts.words:
            name = word.removeprefix(BUILTIN)
            if word.startswith(BUILTIN) and (name in BUILT_IN or name in self.stubs):
                found[word] = name
                self.tell(f"{word} is read as {name}")
        if self.facts.words["__builtin_expect"]:
            found["__builtin_expect(a, b)"] = "((long)(a))"
            self.tell("__builtin_expect(a, b) is read as (long)(a)")
        for word in ("__builtin_trap", "__builtin_unreachable"):
            if self.facts.words[word]:
                found[word] = "abort"
                self.tell(f"{word} is read as abort")

    def tell(self, sentence):
        """Keeps an assumption of the whole unit."""
        self.told.append(Assumption(sentence))

    def used_stubs(self):
        """Returns the files of the stub functions that the unit calls and does not define, and what they assume."""
        names = self.facts.called | {it.removeprefix(BUILTIN) for it in self.facts.called}
        taken = sorted(it for it in names if it in self.stubs and it not in self.facts.definitions
                       and it not in self.facts.macros | self.other_names)
        return {name: self.stubs[name] for name in taken}

    def before(self):
        """Returns the lines before the user's unit."""
        given = {text.partition("=")[0].partition("(")[0] for kind, text in self.sources.compilation.macros}
        lines = ["/* made by ccheck-cc */"]
        for name, text in self.macros.items():
            if name.partition("(")[0] not in given | self.left_out:
                lines.append(f"#define {name} {text}".rstrip())
        lines += [f'#include "{os.path.join("functions", os.path.basename(path))}"'
                  for path in self.used_stubs().values()]
        for kind, text in self.sources.compilation.macros:
            name, equals, value = text.partition("=")
            defined = f"#define {name} {value if equals else 1}".rstrip()
            lines.append(byte_text(defined if kind == "D" else f"#undef {name}"))
        return lines + [include_line(key) for key in self.sources.forced]

    def text(self, after):
        """Returns the text of the unit with the lines `after` the inclusion."""
        lines = [*self.before(), include_line(self.sources.unit.key), *after]
        return "\n".join(lines) + "\n"

    def write_copies(self, folder):
        """Writes the copies of all files into a folder."""
        for key, source in self.sources.files.items():
            path = f"{folder}/{copy_name(key)}"
            os.makedirs(os.path.dirname(path), exist_ok=True)
            write_file(path, source.edited.text)
        link = f"{folder}/functions"
        if not os.path.lexists(link):
            os.symlink(os.path.join(self.sources.stubs, "functions"), link)

    def write_unit(self, folder, after):
        """Writes the including unit into a folder."""
        write_file(f"{folder}/{UNIT}", self.text(after))

    def directories(self, folder):
        """Returns the directories of headers for the call of ccheck."""
        return [it if it == self.sources.stubs else f"{folder}/{copy_name(it)}" for it in self.sources.searched]


def include_line(key):
    """Returns the line that includes the copy of a file."""
    return f'#include "{copy_name(key)}"'


def copy_name(key):
    """Returns where the copy of a file is in the folder: its own name, without bytes that an #include cannot have."""
    return "tree" + urllib.parse.quote(os.fsencode(key), safe="/ !#$&'()*+,;=:@^~{}|[]-._")


def write_file(path, text):
    """Writes a text of one character a byte."""
    with open(path, "wb") as file:
        file.write(text.encode("latin-1"))
