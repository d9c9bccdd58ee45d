"""Why a command line of ccheck is refused. The program answers all mistakes with the same two words."""
VERBS = ("check", "gate", "load", "prove", "verify", "replay")
CHOICES = {"--format": ("text", "json", "sarif")}
RANGES = {"--turns": (0, 64), "--seed": (0, 2 ** 31 - 1), "--count": (1, 300), "--steps": (0, 1000000)}
TEXTS = ("--model", "--entry", "--base", "--cert", "--draws")
OPTIONS = (*CHOICES, *RANGES, *TEXTS)
NEEDED = {"gate": "--base", "verify": "--cert"}
OTHERS = {"-I": "there is no -I: name the directory after the unit", "-D": "there is no -D: ccheck-cc takes it"}
ANSWERED = ("--help", "-h", "--version", "-V")


def reasons(words):
    """Returns sentences on what is wrong with the words of a command line; a list that may be empty."""
    plain, given, found = split(words)
    found += [f"{it!r} is not UTF-8" for it in words if any("\ud800" <= one <= "\udfff" for one in it)]
    if not words:
        return ["there is no verb; the verbs are " + ", ".join(VERBS)]
    if not plain or plain[0] not in VERBS:
        found.insert(0, f"{plain[0] if plain else 'nothing'} is not a verb; the verbs are {', '.join(VERBS)}")
    if len(plain) < 2:
        found.append("there is no unit after the verb")
    for option, value in given:
        found += value_faults(option, value)
    found += [f"{it} is given twice" for it in sorted({it for it, _ in given if sum(it == o for o, _ in given) > 1})]
    needed = NEEDED.get(plain[0]) if plain else None
    if needed and needed not in {it for it, _ in given}:
        found.append(f"{plain[0]} needs {needed} FILE")
    return found


def split(words):
    """Returns the words without a dash, the options with their values, and sentences on words that are neither."""
    plain, given, found, left = [], [], [], list(words)
    while left:
        word = left.pop(0)
        name, sign, value = word.partition("=")
        if word == "--":
            plain += left
            break
        if word == "-" or not word.startswith("-"):
            plain.append(word)
        elif word in ANSWERED:
            break
        elif name not in OPTIONS:
            found.append(unknown(word))
        elif sign:
            given.append((name, value))
        elif not left or left[0].startswith("-") and left[0] != "-":
            found.append(f"{name} lacks its value")
        else:
            given.append((name, left.pop(0)))
    return plain, given, found


def unknown(word):
    """Returns a sentence on an option that ccheck does not have."""
    for begin, sentence in OTHERS.items():
        if word == begin or len(begin) == 2 and word.startswith(begin):
            return sentence
    name = word.partition("=")[0]
    near = [it for it in OPTIONS if len(name) > 3 and it.startswith(name)]
    return f"there is no option {word}" + (f"; {near[0]} must be written out" if near else "")


def value_faults(option, value):
    """Returns sentences on the value of an option."""
    if option in CHOICES and value not in CHOICES[option]:
        return [f"{option} is one of {', '.join(CHOICES[option])}, not {value}"]
    if option in RANGES:
        low, high = RANGES[option]
        if not value.isdecimal() or value != str(int(value)) or not low <= int(value) <= high:
            return [f"{option} is a number from {low} to {high} in decimal digits, not {value}"]
    return []
