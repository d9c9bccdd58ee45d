"""Stand-ins: functions that a unit declares and calls but does not define get a body that returns input."""
from ccheck_tools.c_pieces import STORAGE_WORDS, text_of
from ccheck_tools.c_types import declared_name, parameters_of, result_of
from ccheck_tools.library import BUILT_IN
from ccheck_tools.objects import type_text
from ccheck_tools.rewriting import Assumption

INPUT = "ccheck_input"
INPUT_LINES = [
    f"static unsigned long long {INPUT}(void) {{",
    "    unsigned long long n = getchar() & 255;",
    *["    n = n * 256 + (getchar() & 255);"] * 7,
    "    return n;",
    "}",
]


def missing_functions(facts, stubs):
    """Returns the declarators of functions that are called and declared, and neither defined nor of the library."""
    return [found for name, (found, _) in facts.declarations.items()
            if name in facts.called and name not in facts.definitions and name not in BUILT_IN | set(stubs)
            and name not in facts.macros]


def stand_in(found, types, objects, no_return=False):
    """Returns the lines of a stand-in and a sentence on it, or None and why there is none."""
    name = found.name.text
    if any(it.text == "..." for it in found.parameters):
        return None, f"{name} takes a variable number of arguments"
    spec, stars = result_of(found)
    kind = types.kind(spec, stars)
    if kind == "other" or kind == "struct":
        return None, f"the result of {name} is neither an integer nor a pointer"
    head = f"{text_of(spec)} {text_of(stars)}{name}({named_parameters(found)})"
    told = f"{name} has no definition: it is read as a function that changes nothing and"
    if no_return:
        return [f"{head} {{ abort(); }}"], f"{name} has no definition: it is read as a function that ends the run"
    if kind == "void":
        return [f"{head} {{ }}"], f"{told} returns"
    if kind == "integer":
        return [f"{head} {{ return ({text_of(spec)}){INPUT}(); }}"], f"{told} returns any number of its type"
    pointed = types.pointed(spec, stars)
    if not objects or pointed is None or types.kind(*pointed) not in ("integer", "struct"):
        return None, f"{name} has no definition and returns a pointer"
    element = type_text(pointed[0])
    if element is None or pointed[1]:
        return None, f"{name} has no definition and returns a pointer"
    lines = [f"{head} {{ return getchar() < 0 ? 0 : calloc({objects}, sizeof({element})); }}"]
    return lines, f"{told} returns null or {objects} fresh zero objects"


def named_parameters(found):
    """Returns a parameter list in which each parameter has a name."""
    named = []
    for number, (spec, declarator) in enumerate(parameters_of(found), 1):
        text = text_of([it for it in spec if it.text not in STORAGE_WORDS])
        if declared_name(declarator):
            named.append(f"{text} {text_of(declarator)}")
        else:
            stars = [it for it in declarator if it.text != "[" and it.text != "]" and it.kind != "number"]
            arrays = declarator[len(stars):]
            named.append(f"{text} {text_of(stars)} ccheck_{number}{text_of(arrays)}")
    return ", ".join(named) or "void"


def stand_ins(facts, types, stubs, objects):
    """Returns the lines of all stand-ins, the assumptions, and why some functions have none, by name."""
    lines, told, without = [], [], {}
    for found in missing_functions(facts, stubs):
        body, sentence = stand_in(found, types, objects, found.name.text in facts.no_return)
        if body is None:
            without[found.name.text] = sentence
        else:
            lines += body
            told.append(Assumption(sentence))
    return lines, told, without
