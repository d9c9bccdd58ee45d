"""A compiler's command line, read into what an analysis needs: units, directories, macros and the data model."""
import dataclasses
import os
import shlex

WITH_VALUE = {"-o", "-MF", "-MT", "-MQ", "-x", "-L", "-l", "-u", "-z", "-T", "-Xlinker", "-Xassembler",
              "-Xpreprocessor", "-arch", "--param", "-isysroot", "--sysroot", "-target", "-dumpbase", "-G", "-B"}
KINDS = ("quoted", "plain", "system", "after")
DIRECTORIES = {"-iquote": "quoted", "-I": "plain", "-isystem": "system", "-idirafter": "after"}
WITHOUT_MEANING = ("-W", "-O", "-g", "-M", "-pipe", "-c", "-S", "-E", "-o", "-L", "-l", "-s", "-v", "-w", "-pedantic",
                   "-ansi", "-static", "-shared", "-rdynamic", "-pthread", "-nostdinc", "-no-pie", "-pie", "-m64",
                   "-fPI", "-fpi", "-fdiagnostics", "-fcolor", "-fstack-protector", "-ffile-prefix", "-fdebug-prefix",
                   "-fvisibility", "-ffunction-sections", "-fdata-sections", "-P", "-H")
LINKED = (".o", ".a", ".so", ".lo", ".la", ".ld")
STANDARDS = {"89": "", "90": "", "iso9899:1990": "", "iso9899:199409": "199409L", "99": "199901L", "9x": "199901L",
             "iso9899:1999": "199901L", "11": "201112L", "1x": "201112L", "iso9899:2011": "201112L", "17": "201710L",
             "18": "201710L", "iso9899:2017": "201710L", "iso9899:2018": "201710L", "2x": "202000L", "23": "202311L"}


class CommandFault(Exception):
    """A command line that cannot be read; the message says why."""


@dataclasses.dataclass
class Compilation:
    """How one unit is compiled."""
    source: str
    folder: str = "."
    directories: dict = dataclasses.field(default_factory=lambda: {kind: [] for kind in KINDS})
    macros: list = dataclasses.field(default_factory=list)      # ("D", "NAME=TEXT") or ("U", "NAME"), in order
    forced: list = dataclasses.field(default_factory=list)      # files of -include
    model: str = "lp64"
    char_signed: bool = True
    standard: str = "201710L"
    notes: list = dataclasses.field(default_factory=list)

    def searched(self):
        """Returns the directories in which headers are looked for, in order."""
        return [it for kind in KINDS for it in self.directories[kind]]


class Reader:
    """Reads the words of one command line."""

    def __init__(self, folder):
        self.common = Compilation("", folder)
        self.sources, self.unknown = [], []

    def read(self, words):
        """Takes all words."""
        words = list(words)
        while words:
            word = words.pop(0)
            if word == "-" or not word.startswith(("-", "@")):
                self.file(word)
            elif word.startswith("@"):
                words[:0] = self.response(word[1:])
            elif not self.directory(word, words) and not self.macro(word, words) and not self.model(word):
                self.other(word, words)

    def file(self, word):
        """Takes a word that is no option: a unit, unless it is for the linker."""
        if not word.endswith(LINKED):
            self.sources.append(word)

    def response(self, name):
        """Returns the words of a file `@name`."""
        try:
            with open(os.path.join(self.common.folder, name), encoding="utf-8", errors="surrogateescape") as file:
                return shlex.split(file.read())
        except OSError as fault:
            raise CommandFault(f"the file @{name} could not be read: {fault.strerror}") from fault
        except ValueError as fault:
            raise CommandFault(f"the file @{name} has an open quotation") from fault

    def value(self, option, word, words):
        """Returns the value of an option, joined to it or the next word."""
        if len(word) > len(option):
            return word[len(option):].removeprefix("=") if option.startswith("--") else word[len(option):]
        if not words:
            raise CommandFault(f"the option {option} lacks its value")
        return words.pop(0)

    def directory(self, word, words):
        """Takes an option that names a directory of headers."""
        for option, kind in DIRECTORIES.items():
            if word.startswith(option):
                self.common.directories[kind].append(self.value(option, word, words))
                return True
        return False

    def macro(self, word, words):
        """Takes -D, -U and -include."""
        if word in ("-include", "--include", "-imacros"):
            self.common.forced.append(self.value(word, word, words))
        elif word.startswith(("-D", "-U")):
            text = self.value(word[:2], word, words)
            self.common.macros.append((word[1], text))
        else:
            return False
        return True

    def model(self, word):
        """Takes an option that sets the data model, the sign of char or the standard."""
        if word in ("-m32", "-mx32"):
            self.common.model = "ilp32"
        elif word == "-m64":
            self.common.model = "lp64"
        elif word in ("-funsigned-char", "-fno-signed-char"):
            self.common.char_signed = False
        elif word in ("-fsigned-char", "-fno-unsigned-char"):
            self.common.char_signed = True
        elif word == "-ansi" or word.startswith("-std="):
            name = word.partition("=")[2].removeprefix("gnu").removeprefix("c") or "89"
            if name not in STANDARDS:
                self.unknown.append(word)
            self.common.standard = STANDARDS.get(name, self.common.standard)
        else:
            return False
        return True

    def other(self, word, words):
        """Takes an option that changes nothing here; one that may change something is kept for a note."""
        if word in WITH_VALUE:
            self.value(word, word, words)
        if not word.startswith(WITHOUT_MEANING):
            self.unknown.append(word)

    def compilations(self):
        """Returns one compilation for each unit of the command line."""
        notes = []
        if self.unknown:
            notes.append(f"options that are not looked at: {' '.join(dict.fromkeys(self.unknown))}")
        return [dataclasses.replace(self.common, source=it, notes=list(notes)) for it in self.sources]


def read_command(words, folder="."):
    """Returns the compilations of a compiler's command line, without the compiler's own name."""
    reader = Reader(folder)
    reader.read(words)
    return reader.compilations()
