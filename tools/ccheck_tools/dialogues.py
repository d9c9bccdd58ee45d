"""What a unit asks the outside for along a run, found by trying values, and the draws that answer it.

A run takes numbers, its *draws*, in order. `replay` does not print what each draw is for. But a draw out of its range
ends the run. So a few runs find the range, and the range says what is asked for:

- a parameter of the entry: the first draws, with a range of their own
- a character of getchar: -1 to 255
- a line of fgets: 0 or 1, then a length from 0 to n, then that many characters
- memory for an allocation: 0 or 1, without a length after it
- the result of printf: 0 to the greatest int
"""
from typing import NamedTuple

MISSING = 2 ** 63          # out of the range of each draw except an unsigned parameter of 64 bits
GREATEST_INT = 2 ** 31 - 1
CONTEXT = 4
EXTRA = 24                 # questions that are answered after the end of the text before a run is tried
MOST = 4000                # draws of one run
ROUNDS = 200


class Kind(NamedTuple):
    """What a draw is for, and its range."""
    name: str
    low: int
    high: int


CHARACTER = Kind("character", -1, 255)
MEMORY = Kind("memory", 0, 1)
PRINTED = Kind("printed", 0, GREATEST_INT)


class World(NamedTuple):
    """What the outside is like: its text, which allocations fail, what printf gives, and the entry's arguments.

    `denied` counts allocations from 1; 0 in it denies all of them. The default of `printed` is not a character, so
    that a character that was guessed wrongly is seen. With `is_bare` fgets gives lines without their ends, which no stream
    does but `replay` takes: ccheck-cc makes arguments of main from such lines.
    """
    text: bytes = b""
    denied: frozenset = frozenset()
    printed: int = 1000
    numbers: tuple = ()
    is_bare: bool = False


class Answers:
    """The draws that a world gives, made one question at a time."""

    def __init__(self, world):
        self.world, self.draws, self.kinds = world, [], []
        self.at = self.asked_memory = self.asked_numbers = self.past = 0

    def give(self, kind):
        """Appends the answer to a question."""
        self.kinds.append((kind, len(self.draws)))
        self.past += self.at >= len(self.world.text) and kind.name != "number"
        getattr(self, f"give_{kind.name}")(kind)

    def give_character(self, _):
        """Answers with the next character, or -1."""
        self.draws.append(self.world.text[self.at] if self.at < len(self.world.text) else -1)
        self.at += 1

    def give_line(self, kind):
        """Answers with the next line, as far as there is room for it, or with 0; without room nothing is read."""
        if kind.high == 0:
            self.draws += [1, 0]
            return
        left = self.world.text[self.at:self.at + kind.high]
        end = left.find(b"\n")
        line = left if end < 0 else left[:end + 1]
        self.at += len(line)
        shown = line.removesuffix(b"\n") if self.world.is_bare else line
        self.draws += [1, len(shown), *shown] if line else [0]

    def give_memory(self, _):
        """Answers whether there is memory."""
        self.asked_memory += 1
        self.draws.append(0 if self.asked_memory in self.world.denied or 0 in self.world.denied else 1)

    def give_printed(self, _):
        """Answers with the result of printf."""
        self.draws.append(self.world.printed)

    def give_number(self, kind):
        """Answers with an argument of the entry, cut to its range."""
        numbers = self.world.numbers
        number = numbers[self.asked_numbers] if self.asked_numbers < len(numbers) else 0
        self.asked_numbers += 1
        self.draws.append(max(kind.low, min(kind.high, number)))

    def context(self):
        """What the next question is guessed by: the last ones, and what the last draw was."""
        last = self.draws[-1] if self.draws else None
        return (*(kind for kind, _ in self.kinds[-CONTEXT:]), class_of(last))

    def before(self, wrong):
        """Returns the answers to the questions before the one that the draw number `wrong` answers."""
        kept = Answers(self.world)
        ends = [at for _, at in self.kinds[1:]] + [len(self.draws)]
        for (kind, _), end in zip(self.kinds, ends):
            if end > wrong:
                break
            kept.give(kind)
        return kept


def class_of(draw):
    """A coarse class of a draw, as a character."""
    if draw is None or not 0 <= draw <= 255:
        return "none"
    one = chr(draw)
    return "line" if draw == 10 else "digit" if one.isdigit() else "letter" if one.isalpha() else "other"


class Questions:
    """Finds by a few runs what the draw after given ones is for."""

    def __init__(self, replays):
        self.replays = replays

    def takes(self, draws, value):
        """Whether the draw after these may have this value."""
        outcome = self.replays.run([*draws, value, MISSING])
        return outcome.end != "draws" or outcome.used > len(draws) + 1

    def is_asked(self, draws):
        """Whether the run asks for a draw after these."""
        outcome = self.replays.run(draws)
        return outcome.end == "draws" and outcome.used == len(draws)

    def greatest(self, draws, low, high):
        """The greatest value that the draw may have; it lies from low to high."""
        while low < high:
            middle = (low + high + 1) // 2
            low, high = (middle, high) if self.takes(draws, middle) else (low, middle - 1)
        return low

    def number(self, draws):
        """The kind of a parameter, with its range."""
        if not self.takes(draws, -2):
            return Kind("number", 0, self.greatest(draws, 0, 2 ** 64 - 1))
        high = self.greatest(draws, 0, 2 ** 63 - 1)
        return Kind("number", -high - 1, high)

    def find(self, answers):
        """Returns what the draw after these answers is for, or None where none is asked for."""
        draws = answers.draws
        if not self.is_asked(draws):
            return None
        if all(kind.name == "number" for kind, _ in answers.kinds):
            if self.takes(draws, -2) or self.takes(draws, GREATEST_INT + 1):
                return self.number(draws)
        if not self.takes(draws, 2):
            return self.memory_or_line(draws)
        if self.takes(draws, -1):
            return CHARACTER
        return PRINTED if self.takes(draws, GREATEST_INT) else self.number(draws)

    def memory_or_line(self, draws):
        """Which of the two a draw of 0 or 1 is for. A length follows that of a line."""
        then = [*draws, 1]
        if not self.is_asked(then) or self.takes(then, -1):
            return MEMORY
        if not self.takes(then, 2):
            return self.memory_or_short_line(then)
        if self.takes(then, GREATEST_INT):
            return MEMORY
        return Kind("line", 0, self.greatest(then, 2, GREATEST_INT - 1))

    def memory_or_short_line(self, then):
        """The same, where what follows is 0 or 1: the length of a line with room for one character, or for none."""
        if not self.takes(then, 1):
            return Kind("line", 0, 0)
        more = [*then, 1]
        is_character = self.is_asked(more) and self.takes(more, 255) and not self.takes(more, 256)
        return Kind("line", 0, 1) if is_character and not self.takes(more, -1) else MEMORY


class Dialogue:
    """Answers a unit for a world. What was asked for after the same last questions is the guess in later runs."""

    def __init__(self, replays):
        self.replays, self.questions, self.known = replays, Questions(replays), {}

    def find(self, answers):
        """Finds the next question, and keeps it."""
        kind = self.known[answers.context()] = self.questions.find(answers)
        return kind

    def extend(self, answers):
        """Answers what is asked for by the guesses, up to some questions past the end of the text."""
        while answers.past < EXTRA and len(answers.draws) < MOST:
            context = answers.context()
            kind = self.known[context] if context in self.known else self.find(answers)
            if kind is None:
                return
            answers.give(kind)

    def answer(self, world):
        """Returns the answers to a run in this world, and its outcome; no guess in it is contradicted by the run."""
        answers = Answers(world)
        for _ in range(ROUNDS):
            self.extend(answers)
            outcome = self.replays.run(answers.draws)
            if outcome.end != "draws":
                break
            is_all_used = outcome.used == len(answers.draws)
            if is_all_used and self.is_last_taken(answers.draws):
                if answers.past >= EXTRA or len(answers.draws) >= MOST:
                    break
            else:
                answers = answers.before(outcome.used - 1)
            kind = self.find(answers)
            if kind is None:
                break
            answers.give(kind)
        return answers, outcome

    def is_last_taken(self, draws):
        """Whether the last draw is in its range."""
        return not draws or self.questions.takes(draws[:-1], draws[-1])


def exact_answers(replays, world):
    """Returns the answers to the run in a world, with each question found by trying, and the outcome of the run."""
    questions, answers = Questions(replays), Answers(world)
    guess = None
    while len(answers.draws) < MOST and answers.past < 4 * EXTRA:
        guess = guess if guess and is_this(questions, answers.draws, guess) else questions.find(answers)
        if guess is None:
            break
        answers.give(guess)
    return answers, replays.run(answers.draws)


def is_this(questions, draws, kind):
    """Whether the next question is the one that is guessed, which is the last one: a character or a line."""
    if kind == CHARACTER:
        return questions.takes(draws, -1) and not questions.takes(draws, 256)
    if kind.name == "line":
        return questions.is_asked([*draws, 1]) and questions.takes([*draws, 1], kind.high) \
            and not questions.takes([*draws, 1], kind.high + 1) and not questions.takes(draws, 2)
    return False


def read_back(replays, draws):
    """Returns the answers that draws are, the text that they read, and why no stream gives it, as sentences."""
    questions, answers, text, faults = Questions(replays), Answers(World()), bytearray(), []
    is_over, guess = False, None
    while len(answers.draws) < len(draws):
        guess = guess if guess and is_this(questions, answers.draws, guess) else questions.find(answers)
        if guess is None:
            break
        at, value = len(answers.draws), draws[len(answers.draws)]
        answers.kinds.append((guess, at))
        answers.draws.append(value)
        if guess.name == "line" and value == 1 and at + 1 < len(draws):
            line = draws[at + 2:at + 2 + draws[at + 1]]
            answers.draws += draws[at + 1:at + 2 + len(line)]
            faults += line_faults(line, guess.high, at + 1, is_over)
            text += bytes(it % 256 for it in line)
        elif guess == CHARACTER and value >= 0:
            faults += [f"draw {at + 1} is a character after the end of the input"] if is_over else []
            text.append(value % 256)
        elif guess.name in ("line", "character"):
            is_over = True
    return answers, bytes(text), faults


def line_faults(line, room, number, is_over):
    """Returns why no stream gives a line to fgets."""
    faults = []
    if is_over:
        faults.append(f"draw {number} is a line after the end of the input")
    if not line and room:
        faults.append(f"draw {number} is a line without characters")
    if 10 in line[:-1]:
        faults.append(f"draw {number} is a line with a line end before its last character")
    if line and line[-1] != 10 and len(line) < room:
        faults.append(f"draw {number} is a line without a line end: it is the last one of the input")
    return faults
