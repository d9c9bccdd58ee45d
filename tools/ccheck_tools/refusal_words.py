"""Refusals and limits of ccheck in words, each with what to do."""
from ccheck_tools.c_pieces import STATEMENT_WORDS, TYPE_WORDS
from ccheck_tools.library import BUILT_IN

GENERAL = {
    "BadByte": "a byte here cannot begin a token, or is not allowed outside of comments and string literals",
    "OpenComment": "this comment has no end",
    "OpenLiteral": "this quote has no second one on its line",
    "TooManyTokens": "the file or the unit after macro expansion has too many tokens; split it",
    "HeaderMissing": "no directory on the command line has this header and ccheck has no stub of it; "
                     "name its directory by -I, or write a stub",
    "BadDirective": "this directive is malformed or left out (#line, a computed #include, a macro with `...`)",
    "UnevenConditional": "an #if and its #endif do not match in this file",
    "ErrorDirective": "the unit reaches this #error; define by -D what the condition above it asks for",
    "MacroSpill": "a macro ends with the name of a function-like macro whose `(` comes from the text after it",
    "MacroArguments": "this macro is called with a wrong number of arguments",
    "MacroRedefined": "this macro is already defined in another way; -U or -D on the command line can settle it",
    "IncludeDepth": "headers include each other too deeply, or the unit has more than 1,024 inclusions",
    "FileTooLong": "this file has more than 1,048,576 bytes; split it",
    "NumberForm": "this number or character constant is not an integer constant of the accepted forms",
    "Redeclared": "this name is declared twice with different types, or the unit defines a function of the library",
    "TypeFault": "the types here do not fit: structs passed or returned by value, incomplete types, arguments of "
                 "another number or type than the declaration has",
    "PointerInteger": "a pointer is converted to an integer, or an integer other than 0 to a pointer",
    "ConstantNeeded": "an array length, a case label or the initializer of a static object is not a constant here",
    "FormatFault": "the format of printf is not a literal, or does not agree with its arguments",
    "NoEntry": "the function at which runs start is not defined here, or has a parameter that is not an integer",
    "Recursion": "this call makes a function call itself, directly or through others",
    "TooLarge": "the program is too large for the analysis; choose a function further down by --entry",
    "ReplayMemory": "the run needs more memory than a replay has",
}
UNSUPPORTED = {
    "float": "floating types are not accepted",
    "double": "floating types are not accepted",
    "union": "unions are not accepted",
    "volatile": "volatile objects are not accepted; --drop-volatile leaves the word out",
    "_Bool": "the type _Bool is not accepted; `bool` of <stdbool.h> is read as int",
    "asm": "inline assembly is not accepted",
    "__asm__": "inline assembly is not accepted",
    "...": "functions with a variable number of arguments are not accepted",
    "#": "the # operator of macros is not accepted where the macro is used",
    "##": "the ## operator of macros is not accepted where the macro is used",
    "_Alignas": "alignment specifiers are not accepted",
    "_Alignof": "_Alignof is not accepted",
    "_Generic": "_Generic is not accepted",
    "_Complex": "complex types are not accepted",
    "_Atomic": "atomic types are not accepted",
    "_Thread_local": "thread-local objects are not accepted",
}
VARIADIC = frozenset(
    "fprintf sprintf snprintf vprintf vfprintf vsprintf vsnprintf scanf fscanf sscanf open fcntl ioctl execl execlp "
    "syslog err errx warn warnx dprintf asprintf va_start va_arg va_end va_copy".split())


def explained(analysis, refusal):
    """Returns the sentence on a refusal. Its place is one of ccheck's report."""
    source, line, column = analysis.place(refusal)
    tokens = tokens_from(source, line, column) if source else []
    if source is None and refusal.word in ("TypeFault", "PointerInteger"):
        return ("ccheck-cc could not make a call or a stand-in, since a type is incomplete here or does not fit; "
                "write an entry of your own and name it by --entry")
    if refusal.word == "Unsupported":
        return unsupported(analysis, refusal.rest)
    if refusal.word == "Syntax":
        return syntax(source, tokens)
    if refusal.word == "Undeclared":
        return undeclared(analysis, tokens[0].text if tokens else "")
    if refusal.word == "Redeclared" and tokens and tokens[0].text in BUILT_IN:
        return f"{tokens[0].text} is a function of the library for ccheck, and a unit cannot define or declare it anew"
    if refusal.word == "NumberForm" and tokens and any(it in tokens[0].text for it in ".eEpP"):
        return "floating constants are not accepted"
    if refusal.word == "HeaderMissing" and source:
        return missing_header(analysis, refusal.rest)
    if refusal.word == "TooLarge":
        return f"{GENERAL['TooLarge']} ({refusal.rest})"
    return GENERAL.get(refusal.word, "docs/refusals.md explains this word")


def tokens_from(source, line, column):
    """Returns the tokens of a file from a place of its original text on."""
    offset = source.edited.original.offset(line, column) or 0
    return [it for it in source.tokens if it.end > offset]


def unsupported(analysis, name):
    """Returns the sentence on a word that is left out."""
    if name in ("__attribute__", "__attribute") and analysis.including.kept_attributes:
        kept, place = analysis.including.kept_attributes[0]
        return (f"the attribute {kept} ({place}) changes what the unit means, so attributes are kept and refused; "
                f"--drop-attribute {kept} leaves them out")
    return UNSUPPORTED.get(name, f"{name} is not accepted")


def missing_header(analysis, name):
    """Returns the sentence on a header that was not found."""
    unread = next((text for path, text in analysis.sources.unread.items() if path.endswith("/" + name)), None)
    return unread or GENERAL["HeaderMissing"]


def undeclared(analysis, name):
    """Returns the sentence on a name without a declaration or a definition."""
    if name in VARIADIC:
        return f"{name} takes a variable number of arguments; ccheck's library has printf alone"
    if name in analysis.without:
        return f"{analysis.without[name]}; define it in a file that -include names, or pass --objects"
    if name in analysis.facts.macros:
        return f"the macro {name} makes a name that has no declaration or no definition in the unit"
    if name in analysis.facts.declarations:
        return f"{name} is declared and has no definition in the unit"
    if name in analysis.facts.objects:
        return f"the object {name} has no definition in the unit; define it in a file that -include names"
    if name in analysis.facts.definitions:
        return f"{name} is used before its declaration"
    return f"{name or 'a name'} has no declaration here, or no definition in the unit"


def syntax(source, tokens):
    """Returns the sentence on a piece that the grammar does not derive: what in it is known to be left out."""
    if source is None:
        return "a line that ccheck-cc made does not fit the unit; a macro of the unit may change its meaning"
    end = piece_end(tokens)
    found = suspect(tokens[:end])
    if found is None:
        return ("this declaration or function has a form that is not accepted, or a fault that a compiler finds "
                "(gcc -fsyntax-only)")
    one, what = found
    line = source.edited.original.place(one.start)[0]
    return f"{what} (line {line}) is not accepted" if what else ""


def piece_end(tokens):
    """Returns how many tokens the first piece has: it ends at a `;`, or at the `}` of a function's body."""
    depth, body = 0, False
    for index, one in enumerate(tokens):
        if one.text == "{" and depth == 0:
            body = index > 0 and tokens[index - 1].text == ")"
        depth += (one.text == "{") - (one.text == "}")
        if depth <= 0 and (one.text == ";" or one.text == "}" and body):
            return index + 1
    return len(tokens)


def suspect(tokens):
    """Returns the first token of a piece that shows a form which is left out, with its name."""
    tokens = [it for it in tokens if it.kind != "directive"]
    depth = 0
    for index, one in enumerate(tokens):
        depth += (one.text == "{") - (one.text == "}")
        what = form(tokens, index, depth)
        if what:
            return one, what
    return None


def form(tokens, at, depth):
    """Returns the name of the form that begins at a token, "" where none does."""
    text = [it.text for it in tokens[at:at + 4]] + [""] * 4
    before = tokens[at - 1].text if at else ""
    if text[0] == "(" and text[1] == "*" and tokens[at + 2:at + 3] and tokens[at + 2].kind == "name":
        after = [it.text for it in tokens[at + 3:at + 8]]
        if ")" in after and after[after.index(")") + 1:][:1] == ["("] and before not in ("=", "return"):
            return "a function pointer or a call through one"
    if text[0] == "(" and text[1] == "{":
        return "a statement expression `({ .. })`"
    if text[0] == ")" and text[1] == "{" and before not in ("", ")") and compound_literal(tokens, at):
        return "a compound literal"
    if text[0] in ("{", ",") and text[1] == "." or text[0] in ("{", ",") and text[1] == "[" and depth:
        return "a designated initializer"
    if text[0] in ("struct", "enum") and depth and (text[1] == "{" or text[2] == "{") and before in ("{", "}", ";"):
        return "" if in_struct(tokens, at) else f"{'an' if text[0] == 'enum' else 'a'} {text[0]} body within a block"
    if text[0] == "typedef" and depth:
        return "a typedef within a block"
    if text[0] == "extern" and depth:
        return "an extern declaration within a block"
    if text[0] in ("typeof", "__typeof__", "__typeof"):
        return "typeof"
    if text[0] in ("__alignof__", "__alignof", "__label__", "__builtin_va_arg", "__builtin_offsetof", "__int128",
                   "__real__", "__imag__"):
        return text[0]
    if text[0] == "&&" and before in ("=", "(", ",", "{", "return"):
        return "the address of a label"
    if text[0] == "goto" and text[1] == "*":
        return "a computed goto"
    if text[0] == ":" and depth and tokens[at + 1:at + 2] and tokens[at + 1].kind == "number" and text[2] in (";", ","):
        return "a bit-field"
    if text[0] == "[" and text[1] == "]" and depth and text[2] == ";":
        return "an array member without a length"
    if text[0] == "{" and text[1] == "}" and before == "=":
        return "an empty initializer"
    if text[0] == "?" and text[1] == ":":
        return "a `?:` without its second operand"
    return nested_function(tokens, at, depth)


def nested_function(tokens, at, depth):
    """Says whether a function is declared or defined within a block."""
    one = tokens[at]
    if not depth or one.text not in TYPE_WORDS or tokens[at - 1].text not in ("{", "}", ";"):
        return ""
    rest = [it.text for it in tokens[at + 1:at + 4]]
    if "(" in rest and rest[0] not in STATEMENT_WORDS | {"("}:
        index = at + 1 + rest.index("(")
        if tokens[index - 1].kind == "name" and tokens[index - 1].text not in TYPE_WORDS:
            return "a function that is declared within a block"
    return ""


def compound_literal(tokens, at):
    """Says whether the parentheses that end at a token enclose a type name."""
    depth = 0
    for index in range(at, -1, -1):
        depth += (tokens[index].text == ")") - (tokens[index].text == "(")
        if depth == 0:
            inside = tokens[index + 1:at]
            before = tokens[index - 1].text if index else ""
            typed = inside and all(it.kind in ("name", "number") or it.text in ("*", "[", "]") for it in inside)
            return bool(typed) and before in ("=", "(", ",", "return", "&", "*", "{")
    return False


def in_struct(tokens, at):
    """Says whether a token is in the body of a struct at file scope."""
    depth = 0
    for index in range(at - 1, -1, -1):
        depth += (tokens[index].text == "}") - (tokens[index].text == "{")
        if depth < 0:
            return tokens[index - 1].text != ")" and tokens[index - 1].text != ";" and index > 0
    return False
