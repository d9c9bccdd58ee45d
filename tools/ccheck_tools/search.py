"""Looks for runs of a unit that show its diagnostics: inputs near its tests, of lengths near its numbers, and with failing
allocations first; then changes of the inputs that reached most, guided by a marked copy of the unit."""
import os
import random
import tempfile
import time
from typing import NamedTuple

from . import dialogues, marks, pieces, replays

RESULTS_OF_PRINTF = [0, 1, 2, 1000, dialogues.GREATEST_INT]
DENIED_AT_MOST = 12
TEXT_AT_MOST = 6000
POOL_AT_MOST = 400
STEPS_AT_MOST = 24
TEXT_OF_A_STEP = 64
MARKED_STEPS = 400000      # of the copy, whose marks take steps too
BLIND = 0.1                # the share of tries that are random draws


class Run(NamedTuple):
    """A run that shows a diagnostic: its draws, and the world that gives them, or None where they are random."""
    draws: tuple
    world: dialogues.World | None


class Kept(NamedTuple):
    """A world whose run reached something new, and the marks that it reached."""
    world: dialogues.World
    marks: frozenset


def directories_of(words):
    """The words of a call that are directories."""
    return [it for it in words if os.path.isdir(it)]


class Search:
    """Searches runs of one unit. `wanted` says of a pair whether a run is looked for that shows it."""

    def __init__(self, program, unit, words, wanted, tries=1500, seconds=None, seed=1):
        self.program, self.unit, self.words, self.wanted = program, unit, list(words), set(wanted)
        self.chance, self.tries = random.Random(seed), tries
        self.until = time.monotonic() + seconds if seconds else None
        self.found, self.pool, self.seen, self.hits = {}, [], set(), {}
        self.worlds, self.ways, self.asked = set(), set(), set()
        self.followers, self.joined, self.steps = [], [], []

    def run(self):
        """Searches until each wanted pair is shown or the tries are used up; returns the runs by their pairs."""
        with tempfile.TemporaryDirectory(prefix="ccheck-marked-") as folder:
            with replays.Replays(self.program, self.unit, self.words) as self.plain:
                self.plain.run([])
                with self.marked_replays(folder) as self.runs:
                    self.dialogue = dialogues.Dialogue(self.runs)
                    self.pieces = pieces.Pieces(self.marked.text)
                    self.try_all()
                self.make_shorter()
        return {pair: self.found[pair] for pair in self.found if pair in self.wanted}

    def marked_replays(self, folder):
        """Runs of the marked copy, or of the unit itself where each copy is refused."""
        words = [*self.words, os.path.dirname(os.path.realpath(self.unit)), "--steps", str(MARKED_STEPS)]
        for is_graded in (True, False):
            self.marked = marks.MarkedUnit(self.unit, folder, directories_of(self.words), is_graded)
            runs = replays.Replays(self.program, self.marked.path, words)
            try:
                runs.run([])
                return runs
            except replays.NoRun:
                runs.close()
        self.marked.marks = set()
        return replays.Replays(self.program, self.unit, self.words)

    @property
    def count(self):
        """How many runs were taken, those of the marked copy included."""
        return self.runs.count + self.plain.count

    @property
    def is_done(self):
        """Whether nothing is left to be found, or no try."""
        is_late = self.until is not None and time.monotonic() > self.until
        return is_late or self.count >= self.tries or self.wanted <= self.found.keys()

    def try_all(self):
        """Takes runs: of worlds that come first, of those that follow one which reached new code, and of random ones.

        A unit that asks for nothing has one run.
        """
        first = self.firsts()
        self.try_world(dialogues.World())
        if not self.asked:
            return
        while not self.is_done:
            dice = self.chance.random()
            if dice < 0.45 and self.try_next(first) or dice < 0.8 and self.try_follower():
                continue
            if self.chance.random() < BLIND:
                self.try_draws(some_draws(self.chance, self.pieces.numbers))
            else:
                self.try_world(self.changed(self.picked()))

    def try_next(self, worlds):
        """Takes the run of the next of some worlds; returns whether there is one."""
        world = next(worlds, None)
        if world is not None:
            self.try_world(world)
        return world is not None

    def try_follower(self):
        """Takes the run of a world that follows the last one which reached new code; returns whether there is one."""
        for worlds in (self.followers, self.joined):
            while worlds:
                if self.try_next(worlds[-1]):
                    return True
                worlds.pop()
        return False

    def joining(self, world):
        """Worlds that put the texts which reached new code after the text of one."""
        for text in self.steps[:STEPS_AT_MOST]:
            yield world._replace(text=world.text + text)

    def following(self, world):
        """Worlds that go on from one: other arguments in each place, and more text after its own."""
        for place in range(len(world.numbers)):
            near = [world.numbers[place] + it for it in (1, -1, 2, -2, 3, -3, 4, -4)]
            for number in near + sorted(self.pieces.numbers, key=abs)[:60]:
                yield world._replace(numbers=(*world.numbers[:place], number, *world.numbers[place + 1:]))
        if self.asks_text:
            end = b"\n" if "line" in self.asked else b""
            named = self.pieces
            for word in [*(bytes([it]) for it in named.characters[:24]), *named.words()[:16]]:
                yield world._replace(text=world.text + word)
                if end and not word.endswith(end):
                    yield world._replace(text=world.text + word + end)
            for length in named.lengths[:16]:
                yield world._replace(text=world.text + b"a" * length + end)

    def firsts(self):
        """Worlds that need no other: no input, failing allocations, numbers and lengths of the unit."""
        yield dialogues.World(denied=frozenset({0}))
        yield from self.first_numbers()
        if not self.asks_text:
            return
        named = self.pieces
        for text in [bytes([it]) for it in named.characters] + named.words()[:60] + [b"\n", b"a", b"\xff", b"-1", b"0"]:
            yield dialogues.World(text + b"\n")
            yield dialogues.World(text)
            if "line" in self.asked:
                yield dialogues.World((text + b"\n") * 2, is_bare=True)
        for length in named.lengths[:80]:
            yield dialogues.World(b"a" * length)
            yield dialogues.World(b"a" * length + b"\n")
            yield dialogues.World(b"a\n" * length)
        if named.strings:
            yield dialogues.World(b"\n".join(named.strings) + b"\n")

    def first_numbers(self):
        """Worlds for the parameters of the entry: the same number in each place, then the ends of ranges in each."""
        count = sum(kind.name == "number" for kind, _ in self.dialogue.answer(dialogues.World())[0].kinds)
        for number in sorted({*self.pieces.numbers, *pieces.ENDS}, key=abs)[:120] if count else ():
            yield dialogues.World(numbers=(number,) * count)
        for place in range(count if count > 1 else 0):
            for other in (1, -1):
                for number in pieces.ENDS:
                    yield dialogues.World(numbers=tuple(number if at == place else other for at in range(count)))

    def try_world(self, world):
        """Takes the run of a world. One that reached something new is kept; one that reached new code is followed."""
        if world in self.worlds:
            return
        self.worlds.add(world)
        answers, outcome = self.dialogue.answer(world)
        self.asked |= {kind.name for kind, _ in answers.kinds}
        reached, is_new_code, is_new = self.note(answers.draws[:outcome.used], outcome, world)
        if is_new:
            self.pool.append(Kept(world, reached))
            if not is_new_code and len(world.text) <= TEXT_OF_A_STEP:
                self.joined.insert(0, self.joining(world))
        if is_new_code:
            world = self.trimmed(world, reached)
            self.followers.append(self.following(world))
            if 0 < len(world.text) <= TEXT_OF_A_STEP and world.text not in self.steps:
                self.steps.append(world.text)
            for number in range(1, min(answers.asked_memory, DENIED_AT_MOST) + 1 if not world.denied else 1):
                if not self.is_done:
                    self.try_world(world._replace(denied=frozenset({number})))

    def trimmed(self, world, reached):
        """Returns the world without the end of its text, as far as its run reaches the same marks."""
        size = len(world.text) // 2
        while size and not self.is_done:
            less = world._replace(text=world.text[:-size])
            if self.reaches(less, reached):
                world, size = less, min(size, len(less.text))
            else:
                size //= 2
        return world

    def reaches(self, world, reached):
        """Whether the run of a world reaches all of some marks."""
        answers, outcome = self.dialogue.answer(world)
        return self.note(answers.draws[:outcome.used], outcome, world)[0] >= reached

    def try_draws(self, draws):
        """Takes a run over draws that no world was asked for."""
        outcome = self.runs.run(draws)
        self.note(draws[:outcome.used], outcome, None)

    def note(self, draws, outcome, world):
        """Keeps what a run has shown; returns its marks, whether code is new among them, and whether anything is."""
        reached, others = self.marked.reached(outcome.pairs)
        new = (reached | others | {(outcome.end, len(draws).bit_length())}) - self.seen
        self.seen |= new
        for it in reached:
            self.hits[it] = self.hits.get(it, 0) + 1
        if others & new:
            for pair in self.plain.run(draws).pairs:
                self.found.setdefault(pair, Run(tuple(draws), world))
        way = frozenset(reached)
        is_new = bool(new) or way not in self.ways and len(self.pool) < POOL_AT_MOST
        self.ways.add(way)
        return way, bool((new & (reached | others)) - self.marked.grades), is_new

    def picked(self):
        """Picks a kept world: mostly one of the fewest that reached a mark, before what is wanted or seldom reached."""
        if not self.hits or self.chance.random() < 0.2:
            return self.chance.choice(self.pool).world
        mark = self.near_mark() if self.chance.random() < 0.5 else None
        mark = mark or min(self.chance.sample(sorted(self.hits), min(3, len(self.hits))), key=self.hits.get)
        those = [it.world for it in self.pool if mark in it.marks]
        if not those:
            return self.chance.choice(self.pool).world
        return min(self.chance.sample(those, min(2, len(those))), key=lambda it: len(it.text))

    def near_mark(self):
        """The last reached mark before a wanted place, in its file."""
        left = sorted(self.wanted - self.found.keys())
        place = self.marked.copied_place(self.chance.choice(left)) if left else None
        before = [it for it in self.hits if place and it[0] == place[0] and it[1] <= place[1]]
        return max(before, key=lambda it: (it[1], it[2])) if before else None

    def changed(self, world):
        """Returns a world with a few changes of what the unit asks for."""
        ways = (["number"] * 6 + ["text"] * 6) if world.numbers else ["text"] * 6
        ways = [it for it in ways + ["memory", "printed"] if it in self.asked or it == "text" and self.asks_text]
        ways += ["bare"] if "line" in self.asked else []
        for _ in range(self.chance.choice([1, 1, 2, 3, 5]) if ways else 0):
            way = self.chance.choice(ways)
            if way == "number":
                world = self.changed_numbers(world)
            elif way == "text":
                world = world._replace(text=self.changed_text(world.text)[:TEXT_AT_MOST])
            elif way == "bare":
                world = world._replace(is_bare=not world.is_bare)
            elif way == "memory":
                world = world._replace(denied=world.denied ^ {self.chance.randint(1, DENIED_AT_MOST)})
            else:
                world = world._replace(printed=self.chance.choice(RESULTS_OF_PRINTF))
        return world

    @property
    def asks_text(self):
        """Whether the unit reads its input."""
        return bool({"character", "line"} & self.asked)

    def changed_numbers(self, world):
        """Changes one argument of the entry."""
        numbers = list(world.numbers)
        at = self.chance.randrange(len(numbers))
        choice = self.chance.random()
        if choice < 0.4:
            numbers[at] = self.chance.choice(self.pieces.numbers)
        elif choice < 0.6:
            numbers[at] = self.chance.choice(pieces.ENDS)
        elif choice < 0.8:
            numbers[at] += self.chance.choice([1, -1]) * self.chance.choice([1, 1, 2, 3, 4, 16, 100])
        else:
            numbers[at] = self.chance.choice(numbers) * self.chance.choice([1, -1, 2, 3])
        return world._replace(numbers=tuple(numbers))

    def piece(self):
        """A piece of text to put in."""
        words, choice = self.pieces.words(), self.chance.random()
        if words and choice < 0.4:
            return self.chance.choice(words)
        if self.pieces.characters and choice < 0.75:
            return bytes([self.chance.choice(self.pieces.characters)])
        return bytes([self.chance.choice(pieces.LIKELY)])

    def changed_text(self, text):
        """Makes one change of a text."""
        at = self.chance.randint(0, len(text))
        end = min(len(text), at + self.chance.choice([1, 1, 1, 2, 4, 16]))
        choice = self.chance.random()
        if choice < 0.28:
            return text[:at] + self.piece() + text[at:]
        if choice < 0.42:
            return text + self.piece() + self.chance.choice([b"", b"\n", b" "])
        if choice < 0.58:
            return text[:at] + self.piece() + text[end:]
        if choice < 0.68:
            return text[:at] + text[end:]
        if choice < 0.8:
            return text[:at] + text[at:end] * self.chance.choice([2, 3, 8, 33, 65]) + text[end:]
        if choice < 0.94:
            other = self.chance.choice(self.pool).world.text
            return text + other if choice < 0.9 else text[:at] + other
        if at < len(text):
            near = (text[at] + self.chance.choice([-1, 1])) % 256
            return text[:at] + bytes([near]) + text[at + 1:]
        return text[:at]

    def make_shorter(self):
        """Makes the texts of the wanted runs shorter, as long as the runs show what they showed."""
        with replays.Replays(self.program, self.unit, self.words) as runs:
            dialogue = dialogues.Dialogue(runs)
            for pair in self.wanted & self.found.keys():
                run = self.found[pair]
                if run.world:
                    self.found[pair] = shorter(dialogue, pair, run)


def shorter(dialogue, pair, run, tries=60):
    """Returns a run with less text that shows the same pair: pieces are left out, half by half."""
    size = max(len(run.world.text) // 2, 1)
    while size and tries and run.world.text:
        at, is_changed = 0, False
        while at < len(run.world.text) and tries:
            tries -= 1
            world = run.world._replace(text=run.world.text[:at] + run.world.text[at + size:])
            answers, outcome = dialogue.answer(world)
            if pair in outcome.pairs:
                run, is_changed = Run(tuple(answers.draws[:outcome.used]), world), True
            else:
                at += size
        size = size if is_changed and size == 1 else size // 2
    return run


def some_draws(chance, named):
    """Returns a list of random draws; mostly one that begins with what lets calls succeed."""
    mostly = chance.choice([0.2, 0.5, 0.8])
    draws = []
    for _ in range(chance.randint(1, 40)):
        if chance.random() < mostly:
            draws.append(1)
        else:
            draws.append(chance.choice([chance.choice(named), chance.choice(pieces.ENDS), chance.randint(0, 255),
                                        chance.randint(0, 8)]))
    return draws


class AnySearch(Search):
    """A search that ends with the first wanted pair."""

    @property
    def is_done(self):
        """Whether one of the wanted pairs is found, or no try is left."""
        return bool(self.wanted & self.found.keys()) or super().is_done
