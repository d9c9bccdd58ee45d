"""Reads the functions of src/ (.rt) with their contracts by their text, and says which of them a crate hands out."""
import functools
import glob
import os
import re

import definitions

FUNCTION = re.compile(r"^( *)(pub )?(?:const )?fn (\w+)", re.M)
OWNER = re.compile(r"^(?:pub )?(impl|trait)\b(.*?)\{", re.M | re.S)
CLAUSE = re.compile(r"(requires|ensures)\*?\s*(\w+)?\s*\{")
PASSED_ON = re.compile(r"^\s*pub use ([^;]+);", re.M)


class Function:
    """A function: where it is, whose it is, the first sentence that is said of it, and its clauses."""

    def __init__(self, path, number, name, owner):
        self.path, self.number, self.name, self.owner = path, number, name, owner
        self.crate = path.split("/")[1]
        self.says, self.is_public, self.is_empty = "", False, False
        self.clauses = []

    def ensures(self):
        return [(label, body) for kind, label, body in self.clauses if kind == "ensures"]

    def title(self):
        return f"{self.owner}::{self.name}" if self.owner else self.name

    def is_theorem(self):
        return self.is_public and in_theorems(self.path)


def in_theorems(path):
    """Says whether a file of code is the module `theorems` of a crate, or of a folder of it."""
    return "theorems" in path.rpartition(".")[0].split("/")[3:]


def owners(text):
    """Returns where each impl and trait of a file begins and ends, with the type or trait that it is of."""
    found = []
    for match in OWNER.finditer(text):
        kind, head = match.groups()
        head = re.sub(r"<[^<>]*(?:<[^<>]*>[^<>]*)*>", "", head)
        name = re.findall(r"\w+", head.partition(" where ")[0])
        found.append((match.start(), definitions.closing(text, match.end() - 1), kind, name))
    return found


def owner_at(places, at):
    """Returns the type or trait to which a place belongs, and whether it is an impl of a trait."""
    for begin, end, kind, name in places:
        if begin <= at < end and name:
            return name[0 if kind == "trait" else -1], kind == "impl" and "for" in name
    return None, False


def read_clauses(text, at):
    """Returns the clauses that follow a function's name, and the place where its body or its end is."""
    found, depth = [], 0
    while at < len(text):
        clause = CLAUSE.match(text, at) if depth == 0 and text[at - 1].isspace() else None
        if clause:
            end = definitions.closing(text, clause.end() - 1)
            found.append((clause.group(1), clause.group(2), " ".join(text[clause.end():end - 1].split())))
            at = end
        elif depth == 0 and text[at] in "{;":
            return found, at
        else:
            depth += {"(": 1, "[": 1, ")": -1, "]": -1}.get(text[at], 0)
            at += 1
    return found, at


def said_before(text, at):
    """Returns the first sentence of the comment that documents what begins at a place."""
    lines = []
    for line in reversed(text[:at].rstrip("\n").split("\n")):
        if line.strip().startswith("///"):
            lines.insert(0, line.strip()[3:].strip())
        elif not line.strip().startswith("#["):
            break
    first = " ".join(lines[:lines.index("")] if "" in lines else lines)
    return re.split(r"(?<=[.!?])\s+(?=[A-Z`])", first)[0] if first else ""


@functools.lru_cache(maxsize=None)
def functions_of(path):
    """Returns the functions of a file of code."""
    text, found = definitions.text_of(path), []
    places, passed = owners(text), names_passed_on(path.split("/")[1])
    for match in FUNCTION.finditer(text):
        owner, is_for_trait = owner_at(places, match.start())
        it = Function(path, text.count("\n", 0, match.start()) + 1, match.group(3), owner)
        it.clauses, at = read_clauses(text, match.end())
        it.is_empty = text[at:at + 2] == "{}"
        it.says = said_before(text, match.start())
        is_open = bool(match.group(2)) or bool(owner) and re.search(rf"^pub trait {owner}\b", text, re.M)
        it.is_public = bool(is_open) and not is_for_trait and ((owner or it.name) in passed or in_theorems(path))
        found.append(it)
    return found


@functools.lru_cache(maxsize=None)
def names_passed_on(crate):
    """Returns the names that the nodes of a crate pass on, by which other crates reach them."""
    found = set()
    for path in sources_of(crate):
        for names in PASSED_ON.findall(definitions.text_of(path)):
            found.update(re.findall(r"\b(\w+)\b(?!::)", names))
    return found


def sources_of(crate):
    found = glob.glob(f"{definitions.ROOT}/crates/{crate}/src/**/*.rt", recursive=True)
    return sorted(os.path.relpath(it, definitions.ROOT) for it in found)


def crates():
    """Returns the names of crates, in the order of crates.txt."""
    lines = definitions.text_of("crates.txt").split("\n")
    return [it.split(":")[0].strip() for it in lines if ":" in it and it[0] != "#"]


def all_functions():
    """Yields the functions of all crates, in the order of crates.txt."""
    for crate in crates():
        for path in sources_of(crate):
            yield from functions_of(path)


def run_of(crate_functions=None):
    """Returns the program's top function: the public `run` that has the clause `runs`."""
    for it in crate_functions or all_functions():
        if it.name == "run" and it.is_public and any(label == "runs" for label, _ in it.ensures()):
            return it
    raise SystemExit("no public function `run` with a clause `runs` in crates/")
