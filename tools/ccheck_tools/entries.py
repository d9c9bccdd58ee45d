"""Where runs of a unit begin: `main`, `main` with argument strings from input, or each function of a library."""
import dataclasses

from ccheck_tools.c_pieces import text_of
from ccheck_tools.c_tokens import Lines, tokens_of
from ccheck_tools.c_types import parameters_of
from ccheck_tools.objects import elements, objects_for
from ccheck_tools.old_style import new_parameters
from ccheck_tools.rewriting import Assumption

ENTRY = "ccheck_entry"
NUMBERS = "with any numbers"


@dataclasses.dataclass
class Entry:
    """A function at which runs start: its name, what is shown of it, lines of C that make it, what it assumes."""
    name: str
    shown: str
    lines: list = dataclasses.field(default_factory=list)
    told: list = dataclasses.field(default_factory=list)
    fault: str = ""             # why there is no such entry, "" where there is one
    probe: list = dataclasses.field(default_factory=list)       # lines that call the function, to see if it is there
    function: str = ""          # the function of the unit that runs begin with
    passed: str = ""            # what it is called with, where a report says so

    def __post_init__(self):
        self.function = self.function or self.name


def entries_of(sources, facts, types, options):
    """Returns the entries of a unit."""
    if options.entry:
        return [function_entry(name, facts, types, options) for name in options.entry]
    if "main" in facts.definitions:
        return main_entries(facts.definitions["main"], types, options)
    return library_entries(sources, facts, types, options)


def library_entries(sources, facts, types, options):
    """Returns an entry for each function with external linkage, and for each function that is not recognised."""
    names = [name for name, (_, found, source) in facts.definitions.items()
             if name != "main" and is_external(found, source is sources.unit)]
    found = [function_entry(name, facts, types, options) for name in names] + unknown_entries(sources, facts)
    if found:
        return found
    line = f"int {ENTRY}(void) {{ return 0; }}"
    sentence = "the unit defines no function that another unit can call, so no run of it is looked at"
    return [Entry(ENTRY, "nothing", [line], [Assumption(sentence)])]


def is_external(found, in_unit):
    """Says whether another unit can call a function; an inline function of a header is not counted."""
    words = {it.text for it in found.spec}
    return "static" not in words and (in_unit or not words & {"inline", "__inline", "__inline__"})


def unknown_entries(sources, facts):
    """Returns entries with a fault for functions whose names are not found: no function is passed over in silence."""
    found, lines = [], Lines(sources.unit.text)
    for source, piece in facts.unnamed:
        if source is sources.unit and piece.head:
            line = lines.place(piece.head[0].start)[0]
            sentence = f"the function in line {line} is not recognised; --entry can name it"
            found.append(Entry("", "", fault=sentence))
    for piece in sources.unit.pieces:
        head = head_before_value(piece)
        made = next((it for it in head if it.text in facts.make_functions), None)
        if made:
            line = lines.place(made.start)[0]
            sentence = f"the macro {made.text} in line {line} may define functions; --entry can name them"
            found.append(Entry("", "", fault=sentence))
    return found


def head_before_value(piece):
    """Returns the tokens of a declaration before its first initializer or its members."""
    end = next((at for at, one in enumerate(piece.head) if one.text in ("=", "{")), len(piece.head))
    return piece.head[:end]


def function_entry(name, facts, types, options):
    """Returns the entry for a function of the unit."""
    if name not in facts.definitions:
        return Entry(name, name)
    found = facts.definitions[name][1]
    if found.old_style_names():
        found = new_declarator(facts.definitions[name][0], found)
    parameters = parameters_of(found)
    kinds = [types.kind(*it) for it in parameters]
    if all(kind == "integer" for kind in kinds):
        probe = integer_probe(name, parameters)
        if name in facts.macros:        # its own name is another one
            return Entry(ENTRY, name, probe, function=name, passed=NUMBERS)
        return Entry(name, name, probe=probe, passed="" if name == "main" else NUMBERS)
    if not options.objects:
        sentence = f"{name} has a parameter that is not an integer; --objects passes fresh objects to it"
        return Entry(name, name, fault=sentence, probe=[f"int {ENTRY}(void) {{ {name}(); return 0; }}"])
    return objects_entry(name, parameters, kinds, types, options)


def new_declarator(piece, found):
    """Returns the declarator of an old-style definition with its parameters in the new style."""
    return dataclasses.replace(found, parameters=tokens_of(new_parameters(piece) or "void"), after=[])


def integer_probe(name, parameters):
    """Returns the lines of an entry that calls a function with integers, to see whether the unit defines it."""
    taken = [f"{text_of(spec)} ccheck_{number}" for number, (spec, _) in enumerate(parameters, 1)]
    passed = [f"ccheck_{number}" for number, _ in enumerate(parameters, 1)]
    return [f"void {ENTRY}({', '.join(taken) or 'void'}) {{ {name}({', '.join(passed)}); }}"]


def main_entries(definition, types, options):
    """Returns the entries for `main`: one without arguments, or one for each number of argument strings."""
    piece, found, _ = definition
    if found.old_style_names():
        found = new_declarator(piece, found)
    parameters = parameters_of(found)
    if all(types.kind(*it) == "integer" for it in parameters):
        return [Entry("main", "main", probe=integer_probe("main", parameters))]
    void = text_of(found.spec) == "void"
    return [argument_entry(number, options, len(parameters) == 3, void) for number in range(options.arguments + 1)]


def argument_entry(count, options, environment, void):
    """Returns the entry that calls `main` with the program's name and `count` strings from input."""
    size = options.argument_length + 1
    lines = [f"int {ENTRY}(void)", "{", '    char ccheck_name[8] = "program";']
    lines += [f'    char ccheck_{number}[{size}] = "";' for number in range(1, count + 1)]
    lines += [f"    char *ccheck_arguments[{count + 2}];", "    char *ccheck_environment[1];"]
    if count:
        reads = [f"fgets(ccheck_{number}, {size}, 0) == 0" for number in range(1, count + 1)]
        lines += [f"    if ({' || '.join(reads)})", "        return 0;"]
    lines.append("    ccheck_arguments[0] = ccheck_name;")
    lines += [f"    ccheck_arguments[{number}] = ccheck_{number};" for number in range(1, count + 1)]
    lines += [f"    ccheck_arguments[{count + 1}] = 0;", "    ccheck_environment[0] = 0;"]
    call = f"main({count + 1}, ccheck_arguments{', ccheck_environment' if environment else ''})"
    lines += [f"    {call};", "    return 0;"] if void else [f"    return {call};"]
    lines.append("}")
    told = [Assumption(f"main gets 0 to {options.arguments} argument strings of at most {options.argument_length} "
                       "characters (--arguments, --argument-length)")]
    if environment:
        told.append(Assumption("the environment that main gets is empty"))
    return Entry(ENTRY, f"main with {count} argument strings", lines, told, function="main")


def objects_entry(name, parameters, kinds, types, options):
    """Returns the entry that calls a function with fresh objects for its pointers."""
    taken, outside, inside, arguments = [], [], [], []
    for number, ((spec, declarator), kind) in enumerate(zip(parameters, kinds), 1):
        own = f"ccheck_{number}"
        if kind == "integer":
            taken.append(f"{text_of(spec)} {own}")
            arguments.append(own)
            continue
        pointed = types.pointed(spec, declarator) if kind == "pointer" else None
        made = objects_for(own, pointed, types, options) if pointed else None
        if made is None:
            sentence = f"parameter {number} of {name} is of a type of which no fresh object is made"
            return Entry(name, name, fault=sentence)
        outside += made.outside
        inside += made.inside
        arguments.append(made.argument)
    lines = [*outside, f"void {ENTRY}({', '.join(taken) or 'void'})", "{", *inside,
             f"    {name}({', '.join(arguments)});", "}"]
    passed = (f"with any numbers and with pointers to fresh objects ({elements(options.objects)}, "
              f"strings of at most {options.argument_length} characters; pointers in structs are null)")
    return Entry(ENTRY, name, lines, function=name, passed=passed)
