"""The file compile_commands.json that build systems write: which units there are, and how each is compiled."""
import json
import os
import shlex

from ccheck_tools.command_line import CommandFault, read_command

NAME = "compile_commands.json"
C_UNIT = (".c", ".i")


def read_database(path):
    """Returns the compilations of a database, in order, each once."""
    try:
        with open(path, encoding="utf-8", errors="surrogateescape") as file:
            entries = json.load(file)
    except OSError as fault:
        raise CommandFault(f"{path} could not be read: {fault.strerror}") from fault
    except ValueError as fault:
        raise CommandFault(f"{path} is not JSON: {fault}") from fault
    if not isinstance(entries, list):
        raise CommandFault(f"{path} is not a list of commands")
    found = []
    for number, entry in enumerate(entries, 1):
        one = compilation_of(path, number, entry)
        if one not in found:
            found.append(one)
    return found


def compilation_of(path, number, entry):
    """Returns the compilation of one entry."""
    try:
        source, folder = entry["file"], os.path.join(os.path.dirname(path), entry["directory"])
        words = entry["arguments"] if "arguments" in entry else shlex.split(entry["command"])
    except (KeyError, TypeError, ValueError) as fault:
        raise CommandFault(f"entry {number} of {path} lacks `file`, `directory`, or `command`") from fault
    all_of = read_command(without_compiler(words), folder)
    whole = os.path.normpath(os.path.join(folder, source))
    for one in all_of:
        if os.path.normpath(os.path.join(folder, one.source)) == whole:
            return one
    raise CommandFault(f"entry {number} of {path} has a command that does not name {source}")


def without_compiler(words):
    """Returns the words of a command after the compiler; it may be called by another program, such as ccache."""
    words = list(words)
    while words and not words[0].startswith("-") and not words[0].endswith(C_UNIT):
        words.pop(0)
    return words
