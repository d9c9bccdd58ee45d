"""Fresh objects for pointer parameters: lines of C that declare them and fill them from input."""
import dataclasses

from ccheck_tools.c_pieces import QUALIFIERS, STORAGE_WORDS, text_of

MOST_POINTERS = 8


@dataclasses.dataclass
class Made:
    """Objects that were made: declarations at file scope, statements of the entry, and the pointer to pass."""
    outside: list
    inside: list
    argument: str


def objects_for(own, pointed, types, options, inner=False):
    """Makes objects named `own` for a pointer to `pointed`; returns None where no object can be made."""
    kind, stars = types.kind(*pointed), sum(it.text == "*" for it in pointed[1])
    if kind == "pointer" and not inner:
        return pointers_for(own, pointed, types, options)
    element = "char" if kind == "void" else type_text(pointed[0])
    if element is None or stars or kind not in ("void", "integer", "struct"):
        return None
    if kind == "void" or is_char(pointed):
        size = options.argument_length + 1
        return Made([f"static {element} {own}[{size}];"], [f"    fgets((char *){own}, {size}, 0);"], own)
    declaration = f"static struct {{ {element} value[{options.objects}]; char room[8]; }} {own};"
    return Made([declaration], [f"    fgets((char *)&{own}, sizeof({own}.value) + 1, 0);"], f"{own}.value")


def pointers_for(own, pointed, types, options):
    """Makes an array of pointers to fresh objects, with a null pointer after them."""
    target = types.pointed(*pointed)
    number = min(options.objects, MOST_POINTERS)
    element = type_text(pointed[0])
    if target is None or element is None:
        return None
    made = [objects_for(f"{own}_{index}", target, types, options, True) for index in range(number)]
    if None in made:
        return None
    stars = "*" * sum(it.text == "*" for it in pointed[1])
    outside = [line for one in made for line in one.outside] + [f"static {element} {stars}{own}[{number + 1}];"]
    inside = [line for one in made for line in one.inside]
    inside += [f"    {own}[{index}] = {one.argument};" for index, one in enumerate(made)]
    return Made(outside, inside, own)


def type_text(spec):
    """Returns specifiers as the name of a type, without a struct's members; None for a struct without a tag."""
    words = [it for it in spec if it.text not in QUALIFIERS | STORAGE_WORDS]
    at = next((index for index, one in enumerate(words) if one.text == "{"), None)
    if at is None:
        return text_of(words)
    return text_of(words[:at]) if at == 2 else None


def is_char(pointed):
    """Says whether a pointer is one to characters."""
    return any(it.text == "char" for it in pointed[0]) and not any(it.text == "*" for it in pointed[1])


def elements(number):
    """Returns a number of elements in words."""
    return "1 element" if number == 1 else f"{number} elements"
