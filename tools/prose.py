"""Measures the English of a page of Markdown: habits that slow a reader down, and the lengths of its sentences.

Tables, code, comments in HTML and headings are passed over. A sentence ends at a full stop, a question mark or an
exclamation mark, and with its paragraph or its item of a list.
"""
import re
import signal
import sys

MOST_HABITS = 3      # in 1,000 words, rounded up
MOST_MEAN = 18       # words in a sentence of a page
LONG = 40            # a sentence of more words is long
MOST_LONG = 10       # long sentences of all pages together

HABITS = {
    "stand": r"\b(?:stand|stands|stood|standing)\b",
    "behind": r"\bbehind\b",
    "beside": r"\bbeside\b",
    "hold": r"\b(?:hold|holds|held|holding)\b",
    "tell": r"\b(?:tell|tells|told|telling)\b",
    "is no": r"\b(?<!there )(?:is|are) no\b(?! (?:longer|more)\b)",
    "but for": r"\bbut for\b",
    "come to": r"\b(?:come|comes|came|coming) to\b",
    "That .. is ..": r"(?<![\w,;:] )\bThat (?:each|every|all|an?|the|no|its?|they|there|what|where|one|two|some|any)\b"
                     r"[^.!?]*\b(?:is|are)\b",
}
COMMENT = re.compile(r"<!--.*?-->", re.S)
CODE = re.compile(r"`[^`\n]*`")
LINK = re.compile(r"!?\[([^\]]*)\]\([^)]*\)")
ITEM = re.compile(r"^\s*(?:[-*+]|\d+[.)])\s+")
END = re.compile(r"(?<=[.!?])[\"')*_]*\s+(?=[\"'(*_]*[A-Z0-9])")
WORD = re.compile(r"[A-Za-z0-9][\w'’-]*")


def paragraphs(text):
    """Yields the paragraphs and the items of lists of a page, each as one line of plain text."""
    inside, lines = False, []
    for line in [*COMMENT.sub("", text).split("\n"), ""]:
        line = re.sub(r"^\s*(?:> ?)+", "", line)
        is_fence = line.lstrip().startswith("```")
        inside ^= is_fence
        ends = is_fence or inside or not line.strip() or re.match(r"\s*(#|\||---)", line)
        if lines and (ends or ITEM.match(line)):
            yield plain(" ".join(lines))
            lines = []
        if not ends:
            lines.append(ITEM.sub("", line).strip())


def plain(text):
    """Puts a word in the place of each piece of code, and its text in that of each link."""
    return re.sub(r"\*\*|__", "", LINK.sub(r"\1", CODE.sub("Code", text)))


def sentences(text):
    """Returns the sentences of a page."""
    return [it for paragraph in paragraphs(text) for it in END.split(paragraph) if WORD.search(it)]


class Measure:
    """What was counted on one page."""

    def __init__(self, text):
        found = sentences(text)
        self.lengths = [len(WORD.findall(it)) for it in found]
        self.words = sum(self.lengths)
        self.long = [it for it, length in zip(found, self.lengths) if length > LONG]
        self.habits = [(name, it) for it in found for name, count in habits_of(it) for _ in range(count)]

    def mean(self):
        return self.words / len(self.lengths) if self.lengths else 0

    def most_habits(self):
        return -(-self.words * MOST_HABITS // 1000)

    def faults(self):
        """Yields what is wrong with the page, each in a sentence."""
        if len(self.habits) > self.most_habits():
            names = sorted({name for name, _ in self.habits})
            yield (f"{len(self.habits)} habits of language in {self.words} words, at most {self.most_habits()}: "
                   + ", ".join(f"{it} {sum(name == it for name, _ in self.habits)}" for it in names))
        if round(self.mean(), 1) > MOST_MEAN:
            yield f"{self.mean():.1f} words in a sentence on average, at most {MOST_MEAN}"


def habits_of(sentence):
    """Yields the habits of a sentence with their counts."""
    for name, pattern in HABITS.items():
        count = len(re.findall(pattern, sentence, 0 if name.startswith("That") else re.I))
        if count:
            yield name, count


def faults_of(pages):
    """Yields (page, fault) for pages given as {path: text}; long sentences are counted over all of them."""
    measured = {path: Measure(text) for path, text in pages.items()}
    for path, it in measured.items():
        yield from ((path, fault) for fault in it.faults())
    long = sum(len(it.long) for it in measured.values())
    if long > MOST_LONG:
        for path, it in measured.items():
            if it.long:
                yield path, f"{len(it.long)} of the {long} sentences of over {LONG} words, at most {MOST_LONG} in all"


def main():
    """Prints the figures of the pages that the command line names, with each habit in its sentence."""
    signal.signal(signal.SIGPIPE, signal.SIG_DFL)
    if not sys.argv[1:] or sys.argv[1].startswith("-"):
        sys.exit("usage: tools/prose.py PAGE..: prints the figures of pages, their habits and long sentences")
    for path in sys.argv[1:]:
        with open(path, encoding="utf-8") as file:
            it = Measure(file.read())
        print(f"{path}: {it.words} words, {it.mean():.1f} in a sentence, {len(it.habits)} habits, {len(it.long)} long")
        for name, sentence in [*it.habits, *((f"over {LONG} words", it) for it in it.long)]:
            print(f"  {name}: {sentence}")


if __name__ == "__main__":
    main()
