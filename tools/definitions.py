"""Reads the definitions of specs/ (.antt) and the types of src/ (.rt) by their text: what each names, and its lines.

It goes by names, not by types: a variable that has the name of a definition counts as a use of it. So what `reached`
gives may be too much, and is not too little.
"""
import functools
import glob
import os
import re

ROOT = os.path.realpath(os.path.join(os.path.dirname(__file__), ".."))
USE = re.compile(r"^\s*(?:ghost )?(?:pub )?use (Rattle\.[\w.]+?)(?:\.\{([^}]*)\})?(?: as (\w+))?;?\s*$", re.M)
PASSED = re.compile(r"^\s*pub use (Rattle\.[\w.]+?)(?:\.\{([^}]*)\})?(?: as (\w+))?\s*$", re.M)
WORD = re.compile(r"[A-Za-z_]\w*(?:\.[A-Za-z_]\w*)*|[^\w\s(){}\[\];,.]+")
HEADER = re.compile(r"^\s*(?:(?:abbrev|unfoldable|mutual|def)\s+)*(?:pub\s+)?((?:record|data)\s+)?([^\s:({]+)")
BEGINS = re.compile(r"^\s*(?:abbrev|unfoldable|def|pub|record|data)\b")
BLOCK = re.compile(r"^\s*(?:module\b.*|(?:(?:abbrev|unfoldable)\s+)?mutual)\s*$")
OPENS = re.compile(r"^\s*(?:abbrev|unfoldable)\s+mutual\s*$|^\s*mutual\s*$|^\s*module\b.*\bwhere\s*$")
TYPE = re.compile(r"^(?:pub(?:\(crate\))? )?(struct|enum|trait|const) (\w+)", re.M)


@functools.lru_cache(maxsize=None)
def text_of(path):
    """Returns the text of a file, by its path from the root."""
    with open(f"{ROOT}/{path}", encoding="utf-8") as file:
        return file.read()


def indent(line):
    return len(line) - len(line.lstrip())


class Definition:
    """A definition: its file, the number of its first line, its name, and its lines without comments."""

    def __init__(self, path, number, name):
        self.path, self.number, self.name = path, number, name
        self.lines = []

    def kept(self, left_out):
        """Returns its lines without the fields that `left_out` names, as pairs of record and field."""
        names = [re.match(r"\s*pub (\w+) :", line) for line in self.lines]
        return [line for line, it in zip(self.lines, names) if not (it and (self.name, it.group(1)) in left_out)]

    def words(self, left_out=frozenset()):
        return {word for line in self.kept(left_out) for word in WORD.findall(line.partition(" -- ")[0])}


class Module:
    """A file of definitions: what it defines, and what it imports and passes on."""

    def __init__(self, path):
        self.path = path
        self.text = text_of(path)
        self.names, self.aliases, self.passed = {}, {}, {}
        self.definitions = {}
        for module, names, alias in USE.findall(self.text):
            self.add_import(module, names, alias)
        self.passed = dict((it, module) for module, names, _ in PASSED.findall(self.text) for it in listed(names))
        self.read()

    def add_import(self, module, names, alias):
        if names:
            self.names.update((it, module) for it in listed(names))
        else:
            self.aliases[alias or module.rpartition(".")[2]] = module

    def read(self):
        """Cuts the text into definitions; constructors are names of their definition."""
        found, depth, is_type = None, 0, False
        for number, line in enumerate(self.text.split("\n"), 1):
            if not line.strip() or line.lstrip().startswith("--") or USE.match(line):
                continue
            if OPENS.match(line) or BLOCK.match(line):
                found = None
            elif found and is_type and indent(line) > depth:
                found.lines.append(line)
                self.add_constructor(found, line)
            elif BEGINS.match(line) and not line.lstrip().startswith("pub mod "):
                kind, name = HEADER.match(line).groups()
                found, depth, is_type = Definition(self.path, number, name), indent(line), bool(kind)
                found.lines.append(line)
                self.definitions[name] = found
            elif found:
                found.lines.append(line)

    def add_constructor(self, found, line):
        name = re.match(r"\s*(\w+) :", line)
        if name and " data " in f" {found.lines[0]}":
            self.definitions.setdefault(name.group(1), found)


def listed(names):
    return [it.strip() for it in names.split(",") if it.strip()]


@functools.lru_cache(maxsize=None)
def module_at(path):
    return Module(path)


@functools.lru_cache(maxsize=None)
def types_of(path):
    """Returns the types and traits that a file of code declares, by name."""
    found, text = {}, text_of(path)
    for match in TYPE.finditer(text):
        end = re.compile(r"[;{]").search(text, match.end())
        stop = end.end() if end.group() == ";" else closing(text, end.start())
        number = text.count("\n", 0, match.start()) + 1
        it = found[match.group(2)] = Definition(path, number, match.group(2))
        lines = text[match.start():stop].split("\n")
        it.lines = [line for line in lines if line.strip() and not line.lstrip().startswith(("//", "#["))]
    return found


def closing(text, at):
    """Returns the place after the brace that closes the one at a place."""
    depth = 0
    for place in range(at, len(text)):
        depth += {"{": 1, "}": -1}.get(text[place], 0)
        if depth == 0:
            return place + 1
    return len(text)


def declared_in(parts):
    """Finds a type of code by the path of its view: crate, then folders and file, then the type."""
    for stop in range(len(parts) - 1, 1, -1):
        path = f"crates/{parts[0]}/src/{'/'.join(parts[1:stop])}.rt"
        if os.path.exists(f"{ROOT}/{path}"):
            return types_of(path).get(parts[stop]) or types_of(path).get(parts[-1])
    return None


@functools.lru_cache(maxsize=None)
def passed_modules(crate):
    """Returns the modules that the nodes of a crate pass on: the path by which they are named, and their home."""
    found = {}
    for file in sorted(glob.glob(f"{ROOT}/crates/{crate}/specs/**/*.antt", recursive=True)):
        path = os.path.relpath(file, ROOT)
        if "pub use" in text_of(path):
            node = path[len("crates/"):-len(".antt")].replace("/", ".")
            node = "Rattle." + (node[:-len(".Lib")] if node.endswith(".Lib") else node)
            for module, names, alias in PASSED.findall(text_of(path)):
                if not names:
                    found[f"{node}.{alias or module.rpartition('.')[2]}"] = module
    return found


def home(module):
    """Returns where a module is that other crates may pass on."""
    for _ in range(40):
        parts = module.split(".")
        table = passed_modules(parts[1]) if len(parts) > 1 else {}
        keys = [".".join(parts[:it]) for it in range(4, len(parts) + 1)]
        key = next((it for it in keys if it in table), None)
        if key is None:
            return module
        module = table[key] + module[len(key):]
    return module


def find(module, name):
    """Finds the definition of a name in a module; returns None where it is outside of the tree."""
    parts = home(module).split(".")
    if len(parts) < 4 or parts[2] != "specs" or not os.path.isdir(f"{ROOT}/crates/{parts[1]}"):
        return None
    if parts[3] in ("declared", "contracts"):
        return declared_in([parts[1], *parts[4:], name])
    for stop in range(len(parts), 3, -1):
        path = f"crates/{parts[1]}/specs/{'/'.join(parts[3:stop])}.antt"
        if os.path.exists(f"{ROOT}/{path}"):
            at = module_at(path)
            if name in at.definitions:
                return at.definitions[name]
            if name in at.passed:
                return find(at.passed[name], name)
            return next((at.definitions[it] for it in parts[stop:] if it in at.definitions), None)
    return None


def operators(names):
    """Returns imported infix operators by the sign that a text has for them."""
    return {it.strip("◌"): it for it in names if "◌" in it}


def resolved(word, module):
    """Returns the definition that a word of a module means, (module, name) where it is outside, or None."""
    first, _, rest = word.partition(".")
    if first in module.definitions:
        return module.definitions[first]
    if first in module.names:
        return find(module.names[first], first) or (home(module.names[first]), first)
    if first in module.aliases and rest:
        name = rest.partition(".")[0]
        return find(module.aliases[first], name) or (home(module.aliases[first]), name)
    return None


def outer_names(definition, left_out=frozenset()):
    """Yields the definitions that a definition of an .antt file names, and (module, name) of those outside."""
    module = module_at(definition.path)
    signs = operators(module.names)
    for word in definition.words(left_out):
        found = resolved(signs.get(word, word), module)
        if found:
            yield found


@functools.lru_cache(maxsize=None)
def types_of_crate(crate):
    found = {}
    for file in sorted(glob.glob(f"{ROOT}/crates/{crate}/src/**/*.rt", recursive=True)):
        found.update(types_of(os.path.relpath(file, ROOT)))
    return found


@functools.lru_cache(maxsize=None)
def imported_types(path):
    """Returns the names that a file of code imports, each with its crate and the folders and files before it."""
    found = {}
    for crate, rest in re.findall(r"(?m)^\s*(?:pub )?use (\w+)::([^;]+);", text_of(path)):
        prefix = re.match(r"((?:\w+::)*)", rest).group(1).split("::")[:-1]
        own = path.split("/")[1] if crate in ("crate", "super", "self") else crate
        for name in re.findall(r"\b[A-Z]\w*\b", rest):
            found[name] = (own, prefix)
    return found


def imported(path, name):
    """Finds the type of the tree that a file of code imports by a name."""
    crate, prefix = imported_types(path).get(name, (None, None))
    if not crate or not os.path.isdir(f"{ROOT}/crates/{crate}"):
        return None
    found = declared_in([crate, *prefix, name]) if prefix else None
    return found or types_of_crate(crate).get(name) or passed_type(crate, name)


def passed_type(crate, name):
    """Finds a type that a crate passes on from another one."""
    lib = f"crates/{crate}/src/lib.rt"
    return imported(lib, name) if os.path.exists(f"{ROOT}/{lib}") and name in imported_types(lib) else None


def field_types(definition):
    """Yields the types of the tree that a type of code names: those of its file, and those that the file imports."""
    here = types_of(definition.path)
    for word in {it.partition(".")[0] for it in definition.words()}:
        found = here.get(word) or imported(definition.path, word)
        if found and found is not definition:
            yield found


def reached(roots, left_out=frozenset()):
    """Returns the definitions that are reached from some, and the (module, name) pairs outside of the tree.

    `left_out` are fields, as pairs of record and field, that are passed over.
    """
    todo, seen, outside = list(roots), set(), set()
    while todo:
        it = todo.pop()
        if isinstance(it, tuple):
            outside.add(it)
        elif it not in seen:
            seen.add(it)
            todo += outer_names(it, left_out) if it.path.endswith(".antt") else field_types(it)
    return seen, outside
