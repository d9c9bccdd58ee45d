#!/usr/bin/env python3
"""check_docs.py [--bin PROGRAM]: checks the pages at the top, in docs/ and in docs/dev/, and the man page.

It prints each fault with its place and exits with status 1 if there is one, with 0 if there is none.

- No line has more than 120 columns, no row of a table more than 400. README.md has at most 120 lines, and
  docs/EVIDENCE.md at most 80.
- Links inside the repository lead to files, headings and lines that exist. In [`name`](file#L1) the line has the name.
- Paths and names in `code` exist: files, crates, and identifiers of the sources.
- docs/ARCHITECTURE.md has just the crates of crates.txt, docs/rules.md each rule, docs/refusals.md each refusal.
- <!-- CRATE::CALL: clause NAME (DEFINITION, ..) --> after a claim names a public call, its clause, and definitions; so
  does <!-- CRATE::THEOREM, THEOREM; .. -->.
- What tools/make-ledger and tools/trusted write is what they would write now.
- The English of README.md and docs/*.md keeps the limits of tools/prose.py: habits, and lengths of sentences.
- Each C example does what its mark says when PROGRAM (the built one) checks it, with the options after the mark:
  ```c bad TAG,TAG   just these tags are printed        ```c good             none is
  ```c refused WORD  it is refused with the word        ```c limit WORD       the limit is exceeded
- Each line `$ ccheck ..` of a ```console block prints what is below it, run in examples/. A line `..` is any number of
  lines.
- The man page is formatted without a warning, if man is installed.
"""
import fnmatch
import glob
import os
import re
import subprocess
import sys
import tempfile

sys.dont_write_bytecode = True
import contracts
import prose

ROOT = os.path.realpath(os.path.join(os.path.dirname(__file__), ".."))
COLUMNS = 120
TABLE_COLUMNS = 400
MOST_LINES = {"README.md": 120, "docs/EVIDENCE.md": 80}
MAKERS = ("make-ledger", "make-map", "trusted")
SOURCES = (".rt", ".antt", ".py", ".sh", ".c", ".h", ".txt", ".edit")
CODE = re.compile(r"`([^`\n]+)`")
LINK = re.compile(r"\]\(([^)\s]+)\)")
NAME = re.compile(r"[A-Za-z_][A-Za-z0-9_]*")
PATH = re.compile(r"[\w.*-]+(/[\w.*-]+)+/?")
MADE = re.compile(r"(^|/)out(/|$)")
LINE_LINK = re.compile(r"\[`([^`]+)`\]\(([^)#\s]+)#L(\d+)\)")
GROUND = re.compile(r"<!-- (\w+::.*?) -->")
CALL = re.compile(r"(\w+)::(\w+)(?:: clauses? ([\w, ]+?))?(?: \((.*?)\))?(?:, (.*))?")
QUALIFIED = re.compile(r"[A-Za-z_][A-Za-z0-9_]*(?:(?:::|\.)[A-Za-z_][A-Za-z0-9_]*)*")


def text_of(path):
    """Returns the text of a file; bytes that are not UTF-8, as sources of tests may have, become other signs."""
    with open(path, encoding="utf-8", errors="replace") as file:
        return file.read()


def files_below(folder):
    for at, folders, names in os.walk(f"{ROOT}/{folder}"):
        folders[:] = [it for it in folders if it not in (".git", "out", "__pycache__")]
        yield from (f"{at}/{name}" for name in names)


class Page:
    """A page of text: its prose with the numbers of lines, and its fenced blocks."""

    def __init__(self, path):
        self.path = path
        self.lines = text_of(f"{ROOT}/{path}").split("\n")
        self.prose, self.blocks, inside = [], [], None
        for number, line in enumerate(self.lines, 1):
            if line.lstrip("> ").startswith("```"):
                inside = self.fence(number, line, inside)
            elif inside:
                inside[2].append(line)
            else:
                self.prose.append((number, line))

    def fence(self, number, line, inside):
        if inside:
            return None
        self.blocks.append((number, line.lstrip("> `").split(), []))
        return self.blocks[-1]

    def anchors(self):
        """Returns the anchors that the headings of the page make."""
        heads = [line.lstrip("#").strip() for _, line in self.prose if re.match("#+ ", line)]
        return {re.sub(r"[^\w\- ]", "", it.lower()).replace(" ", "-") for it in heads}


def long_lines(page):
    for number, line in enumerate(page.lines, 1):
        if len(line) > (TABLE_COLUMNS if line.startswith("|") else COLUMNS):
            yield number, f"{len(line)} columns"
    lines = len(page.lines) - 1
    if lines > MOST_LINES.get(page.path, lines):
        yield lines, f"{lines} lines, at most {MOST_LINES[page.path]}"


def at_link(page, path):
    """Returns the path from the root to which a link of a page leads."""
    return os.path.normpath(os.path.join(os.path.dirname(page.path), path)) if path else page.path


def dead_links(page, pages):
    for number, line in page.prose:
        for target in LINK.findall(CODE.sub("", line)):
            path, _, anchor = target.partition("#")
            at = at_link(page, path)
            if re.match(r"[a-z]+:", target):
                continue
            if not os.path.exists(f"{ROOT}/{at}"):
                yield number, f"no file {at}"
            elif anchor and not (re.fullmatch(r"L\d+", anchor) or at in pages and anchor in pages[at].anchors()):
                yield number, f"no heading #{anchor} in {at}"
        yield from ((number, it) for it in dead_lines(page, line))


def dead_lines(page, line):
    """Yields the links to lines of files that lead to no such line, or to one without the name that is linked."""
    for name, path, number in LINE_LINK.findall(line):
        at = at_link(page, path)
        lines = text_of(f"{ROOT}/{at}").split("\n") if os.path.isfile(f"{ROOT}/{at}") else []
        there = lines[int(number) - 1] if int(number) <= len(lines) else ""
        if not re.search(rf"(?<!\w){re.escape(NAME.findall(name)[-1])}(?!\w)", there):
            yield f"line {number} of {at} has no {name}"


class Sources:
    """The files of the repository, and the words of its sources."""

    def __init__(self):
        self.files = [os.path.relpath(it, ROOT) for it in files_below("")]
        self.names = {os.path.basename(it) for it in self.files}
        self.stems = {it.rpartition(".")[0] or it for it in self.names}
        self.words = set(re.findall(r"crates/(\w+)", " ".join(self.files)))
        for it in self.files:
            if it.endswith(SOURCES) and not it.startswith("docs/"):
                self.words.update(NAME.findall(text_of(f"{ROOT}/{it}")))

    def has_path(self, path):
        """Says whether a path exists, from the top or below crates/; NAME and * are any part."""
        pattern = re.sub(r"\bNAME\b", "*", path.rstrip("/"))
        below = (pattern, f"crates/{pattern}", f"crates/*/{pattern}", f"crates/*/{pattern}.antt")
        return any(glob.glob(f"{ROOT}/{it}") for it in below)

    def has_file(self, name):
        return bool(fnmatch.filter(self.names, name))

    def has_words(self, qualified):
        """Says whether the sources have each part of a name that is made of several words."""
        parts = NAME.findall(qualified)
        made = [it for it in parts if "_" in it.strip("_") or re.search("[a-z][A-Z]", it)]
        return all(it in self.words or it in self.stems for it in made)


def lost_names(page, sources):
    for number, line in page.prose:
        for code in CODE.findall(line):
            if PATH.fullmatch(code):
                if not MADE.search(code) and not sources.has_path(code):
                    yield number, f"no path {code}"
            elif re.fullmatch(r"[\w*-]+\.(rt|antt|py|sh|md|txt)", code):
                if not sources.has_file(code):
                    yield number, f"no file {code}"
            elif QUALIFIED.fullmatch(code) and not sources.has_words(code):
                yield number, f"no name {code}"


def lost_grounds(page, sources):
    """Yields what is wrong with the comments that name the clauses on which claims rest."""
    for number, line in page.prose:
        for part in (it.strip() for ground in GROUND.findall(line) for it in ground.split(";")):
            match = CALL.fullmatch(part)
            if match:
                yield from ((number, it) for it in lost_ground(*match.groups(), sources))
            else:
                yield number, f"{part} is not CRATE::CALL: clause NAME (DEFINITION, ..)"


def lost_ground(crate, call, labels, names, further, sources):
    """Yields what does not exist of a call, its clauses, the definitions that they cite, and further theorems."""
    calls = [it for path in contracts.sources_of(crate) for it in contracts.functions_of(path)]
    found = [it for it in calls if it.name == call and it.is_public]
    if not found:
        yield f"no public call {call} in {crate}"
    there = {label for it in found for label, _ in it.ensures()}
    wanted = [it for it in re.split(r", | and ", labels or "") if it]
    yield from (f"no clause {it} of {crate}::{call}" for it in wanted if found and it not in there)
    others = NAME.findall(f"{names or ''} {further or ''}")
    yield from (f"no name {it}" for it in others if it not in sources.words)


def missing_entries(pages):
    """Yields what tables and lists of the pages lack, or have too much."""
    wanted = ("docs/ARCHITECTURE.md", "docs/rules.md", "docs/refusals.md")
    yield from (f"{it}: no such page" for it in wanted if it not in pages)
    if "docs/ARCHITECTURE.md" in pages:
        yield from missing_crates(pages["docs/ARCHITECTURE.md"])
    code = code_of_crates()
    rules = sorted(set(re.findall(r'Rule::\w+ => RuleWords \{\s+tag: "([a-z]+)"', code)))
    enum = re.search(r"pub enum Refusal \{(.*?)\n\}", code, re.S)
    refusals = re.findall(r"^    ([A-Z]\w+)", enum.group(1), re.M) if enum else []
    for path, names in (("docs/rules.md", rules), ("docs/refusals.md", refusals)):
        there = pages[path].anchors() if path in pages else {it.lower() for it in names}
        yield from (f"{path}: lacks a heading {it}" for it in names if it.lower() not in there)
        if not names:
            yield f"{path}: no names to look for were found in the sources"


def missing_crates(page):
    """Yields the crates that a page lacks in its lists and tables, and those that it has too much."""
    crates = {it.split(":")[0] for it in text_of(f"{ROOT}/crates.txt").split("\n") if ":" in it and it[0] != "#"}
    items = [line for _, line in page.prose if re.match(r"[-|] ?`", line)]
    listed = {name for it in items for name in CODE.findall(re.split(r"`:| \| ", it, maxsplit=1)[0] + "`")}
    yield from (f"{page.path}: lacks the crate {it}" for it in sorted(crates - listed))
    yield from (f"{page.path}: has the crate {it}, which does not exist" for it in sorted(listed - crates))


def code_of_crates():
    """Returns the text of all code below crates/."""
    return "\n".join(text_of(it) for it in sorted(files_below("crates")) if it.endswith(".rt") and "/src/" in it)


def stale_pages():
    """Yields what the tools that write pages say of those that are not as they would write them."""
    for tool in MAKERS:
        words = [sys.executable, f"{ROOT}/tools/{tool}", "--check"]
        done = subprocess.run(words, stdout=subprocess.PIPE, stderr=subprocess.STDOUT)
        if done.returncode:
            yield from done.stdout.decode().splitlines()


def user_pages(pages):
    """Returns the texts of the pages for users: README.md and those right in docs/."""
    return {path: "\n".join(it.lines) for path, it in pages.items() if re.fullmatch(r"README\.md|docs/[^/]+\.md", path)}


def checked(program, text, options):
    with tempfile.TemporaryDirectory() as folder:
        with open(f"{folder}/unit.c", "w", encoding="utf-8") as file:
            file.write(text)
        words = [program, "check", "unit.c", *options]
        return subprocess.run(words, cwd=folder, stdout=subprocess.PIPE, timeout=600).stdout.decode()


def example_fault(program, mark, lines):
    """Returns what is wrong with a C example, or None."""
    kind, options = mark[0], mark[1:]
    wanted = set()
    if kind in ("bad", "refused", "limit") and options:
        wanted, options = set(options[0].split(",")), options[1:]
    elif kind != "good":
        return f"{' '.join(mark)} is not a mark"
    out = checked(program, "\n".join(lines) + "\n", options)
    if kind in ("bad", "good"):
        got = set(re.findall(r"^[^:]+:\d+:\d+: (\w+): ", out, re.M))
        is_right = got == wanted and "diagnostics in unit.c" in out
    else:
        got = set(re.findall(rf"^[^:]+:\d+:\d+: {kind}: (\w+)", out, re.M))
        is_right = got == wanted
    return None if is_right else f"marked {' '.join(mark)}, but the program prints:\n{out}"


def console_faults(program, lines):
    """Yields each command of a console block that prints something else than what is below it."""
    calls = []
    for line in lines:
        if line.startswith("$ "):
            calls.append((line[2:].split(), []))
        elif calls:
            calls[-1][1].append(line)
    for words, wanted in calls:
        if words[0] != "ccheck":
            yield f"$ {' '.join(words)} is not a call of ccheck"
            continue
        out = subprocess.run([program, *words[1:]], cwd=f"{ROOT}/examples", stdout=subprocess.PIPE, timeout=600)
        pattern = "".join(r"(?:.*\n)*" if it == ".." else re.escape(it + "\n") for it in wanted)
        if not re.fullmatch(pattern, out.stdout.decode()):
            yield f"$ {' '.join(words)} prints:\n{out.stdout.decode()}"


def bad_examples(page, program):
    for number, mark, lines in page.blocks:
        if mark[:1] == ["console"]:
            for fault in console_faults(program, lines):
                yield number, fault
        elif mark[:1] == ["c"] and len(mark) > 1:
            fault = example_fault(program, mark[1:], lines)
            if fault:
                yield number, fault


def man_warnings():
    try:
        words, plain = ["man", "--warnings", "-l", f"{ROOT}/man/ccheck.1"], {**os.environ, "LC_ALL": "C.UTF-8"}
        done = subprocess.run(words, stdout=subprocess.DEVNULL, stderr=subprocess.PIPE, env=plain)
    except FileNotFoundError:
        return
    yield from (f"man/ccheck.1: {it}" for it in done.stderr.decode().split("\n") if it)


def found_pages():
    """Returns the pages at the top, in docs/ and in docs/dev/, by their path."""
    found = (it for folder in ("", "docs/", "docs/dev/") for it in sorted(glob.glob(f"{ROOT}/{folder}*.md")))
    return {it: Page(it) for it in (os.path.relpath(it, ROOT) for it in found)}


def main():
    words = sys.argv[1:]
    if words and (len(words) != 2 or words[0] != "--bin"):
        sys.exit(__doc__)
    program = os.path.realpath(words[1] if words else f"{ROOT}/crates/ccheck_main/out/ccheck_main")
    if not os.access(program, os.X_OK):
        sys.exit(f"check_docs.py: no program {program}: build it by make, or name one by --bin")
    pages, sources = found_pages(), Sources()
    faults, examples = [*missing_entries(pages), *stale_pages(), *man_warnings()], 0
    for path, page in pages.items():
        found = [*long_lines(page), *dead_links(page, pages), *lost_names(page, sources), *lost_grounds(page, sources)]
        found += bad_examples(page, program)
        faults += [f"{path}:{number}: {fault}" for number, fault in found]
        examples += sum(mark[:1] == ["console"] or mark[:1] == ["c"] and len(mark) > 1 for _, mark, _ in page.blocks)
    faults += [f"{path}: {fault}" for path, fault in prose.faults_of(user_pages(pages))]
    print("\n".join([*faults, f"{len(pages)} pages, {examples} examples, {len(faults)} faults"]))
    return 1 if faults else 0


if __name__ == "__main__":
    sys.exit(main())
