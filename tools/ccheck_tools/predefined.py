"""Macros that a compiler predefines by its data model, and words of GNU C and C11 that macros empty or rename."""
import dataclasses
import re

from ccheck_tools.command_line import CommandFault

SIZES = {"lp64": (2, 4, 8, 8, 8), "ilp32": (2, 4, 4, 8, 4), "llp64": (2, 4, 4, 8, 8)}
KEYS = ("short", "int", "long", "long_long", "pointer")

RENAMED = {"__inline": "inline", "__inline__": "inline", "__const": "const", "__const__": "const",
           "__restrict": "restrict", "__restrict__": "restrict", "__signed": "signed", "__signed__": "signed",
           "__volatile": "volatile", "__volatile__": "volatile", "__asm": "asm"}
EMPTIED = ("__extension__", "_Noreturn")
ATTRIBUTE_WORDS = ("__attribute__", "__attribute")
ASSERTION = "struct ccheck_static_assertion"

MEANING_CHANGED = frozenset(
    "address_space alias aligned cleanup constructor destructor gcc_struct ifunc may_alias mode ms_struct naked packed "
    "progmem scalar_storage_order transparent_union vector_size weakref".split())


@dataclasses.dataclass(frozen=True)
class Model:
    """A data model: sizes in bytes, and whether a plain char is signed."""
    name: str
    short: int
    int: int
    long: int
    long_long: int
    pointer: int
    char_signed: bool = True

    def words(self, size):
        """Returns the signed type of a size that a compiler takes for size_t and intN_t."""
        if size == 1:
            return "signed char"
        for name, own in (("int", self.int), ("long int", self.long), ("long long int", self.long_long),
                          ("short int", self.short)):
            if own == size:
                return name
        return "long long int"

    def as_toml(self):
        """Returns the text of a model file."""
        lines = [f"{key} = {getattr(self, key)}" for key in KEYS]
        return "\n".join(lines + [f"char_signed = {'true' if self.char_signed else 'false'}"]) + "\n"

    def option(self, path):
        """Returns what follows `--model`: a name, or `path`, where a file with `as_toml` has to be."""
        return self.name if self.name in SIZES and self.char_signed else path


def model_of(name, char_signed):
    """Returns the data model of a name or of a model file."""
    if name in SIZES:
        return Model(name, *SIZES[name], char_signed)
    try:
        with open(name, encoding="utf-8") as file:
            found = dict(re.findall(r"^\s*(\w+)\s*=\s*(\w+)", file.read(), re.MULTILINE))
        sizes = [int(found[key]) for key in KEYS]
    except OSError as fault:
        raise CommandFault(f"the model file {name} could not be read: {fault.strerror}") from fault
    except (KeyError, ValueError) as fault:
        raise CommandFault(f"the model file {name} lacks one of its keys or has a value that is no number") from fault
    return Model(name, *sizes, found.get("char_signed") == "true")


def suffix_of(model, words):
    """Returns the suffix of a constant of a type."""
    return {"long int": "L", "long long int": "LL"}.get(words, "")


def greatest(model, size, signed):
    """Returns the greatest number of a type of a size, as a hexadecimal constant with its suffix."""
    words = model.words(size)
    number = 2 ** (8 * size - (1 if signed else 0)) - 1
    unsigned = "U" if not signed and size >= model.int else ""
    return f"{number:#x}{unsigned}{suffix_of(model, words)}"


def most(size):
    """Returns the greatest number of a signed type of a size."""
    return f"{2 ** (8 * size - 1) - 1:#x}"


def data_macros(model):
    """Returns the predefined macros that follow from the data model, by name."""
    found = {"__CHAR_BIT__": "8", "__SCHAR_MAX__": "0x7f", "__SHRT_MAX__": most(model.short),
             "__INT_MAX__": most(model.int), "__LONG_MAX__": f"{most(model.long)}L",
             "__LONG_LONG_MAX__": f"{most(model.long_long)}LL",
             "__SCHAR_WIDTH__": "8", "__SHRT_WIDTH__": str(8 * model.short), "__INT_WIDTH__": str(8 * model.int),
             "__LONG_WIDTH__": str(8 * model.long), "__LONG_LONG_WIDTH__": str(8 * model.long_long)}
    for name, size in (("SHORT", model.short), ("INT", model.int), ("LONG", model.long), ("LONG_LONG", model.long_long),
                       ("POINTER", model.pointer), ("SIZE_T", model.pointer), ("PTRDIFF_T", model.pointer)):
        found[f"__SIZEOF_{name}__"] = str(size)
    for name, signed in (("SIZE", False), ("PTRDIFF", True), ("INTPTR", True), ("UINTPTR", False)):
        found[f"__{name}_TYPE__"] = typed(model, model.pointer, signed)
        found[f"__{name}_MAX__"] = greatest(model, model.pointer, signed)
    for name in ("SIZE", "PTRDIFF", "INTPTR"):
        found[f"__{name}_WIDTH__"] = str(8 * model.pointer)
    found.update(sized_macros(model))
    found.update({"__ORDER_LITTLE_ENDIAN__": "1234", "__ORDER_BIG_ENDIAN__": "4321", "__ORDER_PDP_ENDIAN__": "3412",
                  "__BYTE_ORDER__": "__ORDER_LITTLE_ENDIAN__"})
    if not model.char_signed:
        found["__CHAR_UNSIGNED__"] = "1"
    if model.long == 8 and model.int == 4:
        found.update({"__LP64__": "1", "_LP64": "1"})
    return found


def typed(model, size, signed):
    """Returns the words of a type of a size."""
    words = model.words(size)
    if signed:
        return words
    if words == "signed char":
        return "unsigned char"
    return {"int": "unsigned int", "short int": "short unsigned int", "long int": "long unsigned int"}.get(
        words, "long long unsigned int")


def sized_macros(model):
    """Returns the macros of the types of 8, 16, 32 and 64 bits, and of the widest ones."""
    found = {}
    for bits in (8, 16, 32, 64):
        size = bits // 8
        for prefix, signed in (("INT", True), ("UINT", False)):
            for kind in ("", "_LEAST"):
                found[f"__{prefix}{kind}{bits}_TYPE__"] = typed(model, size, signed)
                found[f"__{prefix}{kind}{bits}_MAX__"] = greatest(model, size, signed)
    widest = "long int" if model.long == 8 else "long long int"
    suffix = "L" if model.long == 8 else "LL"
    found.update({"__INTMAX_TYPE__": widest, "__UINTMAX_TYPE__": widest.replace(" int", " unsigned int"),
                  "__INTMAX_MAX__": f"{2 ** 63 - 1:#x}{suffix}", "__UINTMAX_MAX__": f"{2 ** 64 - 1:#x}U{suffix}",
                  "__INTMAX_WIDTH__": "64"})
    return found


def language_macros(standard):
    """Returns the predefined macros that follow from the standard that the command line names."""
    found = {"__STDC_HOSTED__": "1"}
    if standard:
        found["__STDC_VERSION__"] = standard
    return found
