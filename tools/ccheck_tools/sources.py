"""The files of one unit: the unit itself and the headers of the user that it may include."""
import os
import re

from ccheck_tools.c_pieces import pieces_of
from ccheck_tools.c_tokens import directive_parts, line_tokens, tokens_of
from ccheck_tools.edits import Edits

INCLUDE = re.compile(r'"([^"\n]+)"|<([^>\n]+)>')
MACRO = re.compile(r"[A-Za-z_]\w*")
FUNCTION_MACRO = re.compile(r"([A-Za-z_]\w*)\(")
SYSTEM_FOLDERS = ("/usr/include", "/usr/local/include", "/usr/lib/gcc", "/usr/lib/clang")


class UnitFault(Exception):
    """A unit that cannot be read; the message says why."""


class Source:
    """A file of the user: its text, its tokens, its pieces at file scope and the edits of its copy."""

    def __init__(self, key, shown):
        self.key, self.shown = key, shown
        self.text = read_file(key, shown)
        self.tokens = tokens_of(self.text)
        self.pieces = pieces_of(self.tokens)
        self.edits = Edits(self.text)
        self.edited = None

    def finish(self):
        """Makes the text of the copy from the edits."""
        self.edited = self.edits.applied()

    def includes(self):
        """Returns the names that the file includes, each with whether it is quoted."""
        found = []
        for name, rest in self.directives():
            if name in ("include", "include_next"):
                match = INCLUDE.match(rest)
                if match:
                    found.append((match[1] or match[2], match[1] is not None))
        return found

    def directives(self):
        """Returns the names and rests of the directives."""
        return [directive_parts(one) for one in self.tokens if one.kind == "directive"]

    def macros(self):
        """Returns the names that the file defines as macros."""
        found = (MACRO.match(rest) for name, rest in self.directives() if name == "define")
        return {it[0] for it in found if it}

    def function_macros(self):
        """Returns the names that the file defines as macros with parameters."""
        found = (FUNCTION_MACRO.match(rest) for name, rest in self.directives() if name == "define")
        return {it[1] for it in found if it}

    def words(self):
        """Returns all names of the file, those in directives included, with repetition."""
        for one in self.tokens:
            if one.kind == "name":
                yield one.text
            elif one.kind == "directive":
                yield from (text for kind, text in line_tokens(one.text) if kind == "name")


def read_file(path, shown):
    """Returns the text of a file, one character a byte."""
    try:
        with open(path, "rb") as file:
            return file.read().decode("latin-1")
    except OSError as fault:
        raise UnitFault(f"{shown} could not be read: {fault.strerror}") from fault


def shown_name(key):
    """Returns a file name for reports: relative to the current directory where the file is in it."""
    here = os.getcwd().rstrip("/") + "/"
    return key[len(here):] if key.startswith(here) else key


class Sources:
    """The files of one unit by their absolute names, and the directories in which headers are searched."""

    def __init__(self, compilation, stubs):
        self.compilation, self.stubs = compilation, stubs
        self.files, self.stub_files, self.unread, self.left_out = {}, {}, {}, []
        self.searched = self.search_list()
        whole = self.absolute(compilation.source)
        shown = compilation.source if compilation.folder == "." else shown_name(whole)
        self.unit = self.add(whole, shown)
        self.forced = [self.find_forced(name) for name in compilation.forced]
        self.gather([self.unit, *(self.files[it] for it in self.forced)])

    def absolute(self, name):
        """Returns the absolute name of a file that the command line names."""
        return os.path.normpath(os.path.join(os.getcwd(), self.compilation.folder, name))

    def search_list(self):
        """Returns the directories of headers in order, the one of the stubs before those of -idirafter."""
        kinds = self.compilation.directories
        names = [it for kind in ("quoted", "plain", "system") for it in kinds[kind]]
        found = [self.absolute(it) for it in names]
        self.left_out = [it for it in found if it.startswith(SYSTEM_FOLDERS)]
        found = [it for it in found if it not in self.left_out] + [self.stubs]
        return found + [self.absolute(it) for it in kinds["after"]]

    def add(self, key, shown):
        """Reads a file once."""
        if key not in self.files:
            self.files[key] = Source(key, shown)
        return self.files[key]

    def find_forced(self, name):
        """Finds a file of -include: in the current directory of the compiler, then as a quoted header."""
        for folder in (self.absolute("."), *self.searched):
            path = os.path.normpath(os.path.join(folder, name))
            if os.path.isfile(path):
                self.add(path, shown_name(path))
                return path
        raise UnitFault(f"the file {name} of -include is not there")

    def gather(self, queue):
        """Reads all headers of the user that the files of the queue may include, directly or not."""
        queue = list(queue)
        while queue:
            one = queue.pop()
            for name, quoted in one.includes():
                path = self.find(one, name, quoted)
                if path is None or path in self.files or path in self.stub_files:
                    continue
                if self.is_stub(path):
                    self.stub_files[path] = Source(path, path)
                    queue.append(self.stub_files[path])
                    continue
                try:
                    queue.append(self.add(path, shown_name(path)))
                except UnitFault as fault:
                    self.unread[path] = str(fault)

    def all_files(self):
        """Returns the files of the user and the stub headers that they include."""
        return [*self.files.values(), *self.stub_files.values()]

    def find(self, one, name, quoted):
        """Returns the file that an inclusion finds, None where there is none."""
        for folder in ([os.path.dirname(one.key)] if quoted else []) + self.searched:
            path = os.path.normpath(os.path.join(folder, name))
            if os.path.isfile(path):
                return path
        return None

    def is_stub(self, path):
        """Says whether a file is one of the stubs."""
        return path.startswith(self.stubs.rstrip("/") + "/")
