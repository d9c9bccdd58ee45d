"""Which functions the analysed C has without a definition, and which have a stub in the folder of stubs."""
import os

from ccheck_tools.reports import TOOLS

BUILT_IN = frozenset(
    "malloc calloc realloc free memcpy memmove memset strlen strcpy strncpy strcat strcmp isalpha isdigit isspace "
    "isupper islower isalnum toupper tolower getchar fgets putchar puts printf exit abort".split())
BUILT_IN_HEADERS = frozenset("ctype.h limits.h stddef.h stdio.h stdlib.h string.h".split())


def stub_folder():
    """Returns the folder of the stub headers: next to tools/ in the tree, or where the package has put it."""
    tree = os.path.dirname(TOOLS)
    for path in (os.path.join(tree, "include"), os.path.join(TOOLS, "include")):
        if os.path.isfile(os.path.join(path, "stdint.h")):
            return path
    return os.path.join(tree, "include")


def stub_functions(folder):
    """Returns the functions that have a stub, each with the path of the file that defines it."""
    functions = os.path.join(folder, "functions")
    try:
        names = sorted(os.listdir(functions))
    except OSError:
        return {}
    return {name[:-2]: os.path.join(functions, name) for name in names if name.endswith(".c")}
