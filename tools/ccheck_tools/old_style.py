"""Old-style definitions `int f(a, b) int a; char *b; {` made new: `int f(int a, char *b) {`."""
from ccheck_tools.c_pieces import KEYWORDS, declarator_of, has_type, split_at, text_of


def new_parameters(piece):
    """Returns the parameter list that an old-style definition has in the new style, None where it cannot be found."""
    found = declarator_of(piece.head)
    names = found.old_style_names() if found else None
    if not names or piece.body is None or piece.mixed:
        return None
    types = {}
    for part in split_at(found.after, ";"):
        if part and not declared(part, names, types):
            return None
    if any(name.endswith("_t") for name in names if name not in types):
        return None                             # types without names, which are no old-style list
    return ", ".join(types.get(name, f"int {name}") for name in names)


def declared(tokens, names, types):
    """Adds the parameters of one declaration, such as `char *a, b[3]`, to their types."""
    first = next((index for index, one in enumerate(tokens)
                  if one.text in ("*", "(") or one.text in names and index > 0), None)
    if first is None:
        return False
    spec, rest = tokens[:first], tokens[first:]
    if any(one.kind != "name" for one in spec):
        return False
    for part in split_at(rest, ","):
        name = next((one.text for one in part if one.kind == "name" and one.text in names), None)
        if name is None or name in types:
            return False
        types[name] = f"{text_of(spec)} {text_of(part)}"
    return True


def lacks_type(piece):
    """Says whether a definition leaves out its type, which is int in the old style."""
    found = declarator_of(piece.head)
    return found is not None and piece.body is not None and not has_type(found.spec) and not found.stars


def parameter_text(piece):
    """Returns the parameter list of a definition as text, in the new style; None where it is not plain."""
    found = declarator_of(piece.head)
    if found is None or piece.mixed:
        return None
    if found.old_style_names():
        return new_parameters(piece) if found.after or all_plain(found) else text_of(found.parameters)
    return text_of(found.parameters)


def all_plain(found):
    """Says whether a list of names is one of parameters without a declaration, which are int."""
    return all(one.text not in KEYWORDS for one in found.parameters)


def edit_definition(piece, edits):
    """Makes an old-style definition new. Returns a sentence on it, or None where nothing was done."""
    found = declarator_of(piece.head)
    if found is None or piece.body is None or piece.mixed:
        return None
    told = None
    if found.old_style_names():
        new = new_parameters(piece)
        if new is None or not edits.allowed(found.opening.end, piece.body[0].start):
            return None
        edits.replace(found.opening.end, found.closing.start, new)
        if found.after:
            edits.blank(found.closing.end, piece.body[0].start)
        told = f"the old-style definition of {found.name.text} is read with the parameters ({new})"
    if lacks_type(piece):
        edits.insert(found.name.start, "int ")
        told = told or f"the definition of {found.name.text} has no type and is read as int"
    return told


def implicit_declarations(pieces, edits, declared_names, parameters):
    """Declares functions of type int that are called before their definition. Returns sentences with their pieces."""
    told, seen = [], {}
    for index, piece in enumerate(pieces):
        for one, after in zip(piece.body or [], (piece.body or [])[1:]):
            if one.kind == "name" and after.text == "(":
                seen.setdefault(one.text, index)
    for index, piece in enumerate(pieces):
        found = declarator_of(piece.head) if piece.body is not None and not piece.mixed else None
        name = found.name.text if found else ""
        if name not in parameters or name in declared_names or seen.get(name, index) >= index or not is_int(found):
            continue
        first = pieces[seen[name]].head
        if first:
            edits.insert(first[0].start, f"int {name}({parameters[name] or 'void'}); ")
            told.append((first[0], f"{name} is called before its definition and is read as declared here with the "
                                   f"parameters ({parameters[name] or 'void'})"))
    return told


def edit_objects(piece, edits):
    """Gives declarations of objects without a type, such as `static count;`, the type int. Returns sentences."""
    told = []
    tokens = piece.head if piece.body is None else piece.body
    starts = [0] if piece.body is None else [at + 1 for at, one in enumerate(tokens) if one.text in ("{", "}", ";")]
    for start in starts:
        at = start
        while at < len(tokens) and tokens[at].text in ("static", "extern", "register", "auto", "const"):
            at += 1
        after = tokens[at + 1].text if at + 1 < len(tokens) else ""
        is_name = at > start and tokens[at].kind == "name" and tokens[at].text not in KEYWORDS
        if is_name and after in ("=", ";", ",", "["):
            edits.insert(tokens[at].start, "int ")
            told.append((tokens[at], f"the declaration of {tokens[at].text} has no type and is read as int"))
    return told


def is_int(found):
    """Says whether a function has the type int, in words or without them, and external linkage."""
    words = [one.text for one in found.spec]
    return not found.stars and all(it in ("int", "extern") for it in words)


def edit_declaration(piece, edits, parameters):
    """Gives declarations `int f();` the parameters of the definition of f. Returns sentences on them."""
    found = declarator_of(piece.head)
    if found is None or piece.body is not None or piece.mixed:
        return []
    told = []
    for part in split_at(piece.head[:-1], ","):
        for index, one in enumerate(part[:-2]):
            new = parameters.get(one.text)
            if new and new != "void" and part[index + 1].text == "(" and part[index + 2].text == ")":
                if not edits.replace(part[index + 1].end, part[index + 2].start, new):
                    continue
                told.append(f"the old-style declaration of {one.text} is read with the parameters ({new})")
    return told
