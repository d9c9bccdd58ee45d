"""The analysis of one unit: an including unit is written, ccheck runs from each entry, and places are mapped back."""
import dataclasses
import os
import re
import subprocess

from ccheck_tools import reports
from ccheck_tools.c_types import Types
from ccheck_tools.command_line import CommandFault
from ccheck_tools.entries import ENTRY, Entry, entries_of, library_entries
from ccheck_tools.facts import Facts
from ccheck_tools.including_unit import UNIT, Including, copy_name, write_file
from ccheck_tools.library import BUILT_IN, BUILT_IN_HEADERS, stub_folder, stub_functions
from ccheck_tools.predefined import model_of
from ccheck_tools.refusal_words import explained, tokens_from
from ccheck_tools.rewriting import Assumption, rewrite
from ccheck_tools.sources import Sources, UnitFault
from ccheck_tools.stand_ins import INPUT_LINES, stand_ins

ASSUMES = re.compile(r"\bassumes: (.*?) \*/", re.DOTALL)
MACRO_NAME = re.compile(r"#\s*define\s+(\w+)")
OF_ENTRY = ("NoEntry", "TooLarge", "ReplayMemory")
WITH_NAME = ("Unsupported", "HeaderMissing")


@dataclasses.dataclass
class Fault:
    """Why something was not analysed: a refusal of ccheck, or a sentence."""
    text: str
    word: str = "not read"      # the word by which it is counted
    refusal: object = None
    line: str = ""              # the line of source at the refusal's place
    reason: str = ""            # the refusal in words


@dataclasses.dataclass
class Outcome:
    """What came of one unit."""
    unit: str
    diagnostics: list = dataclasses.field(default_factory=list)
    faults: list = dataclasses.field(default_factory=list)
    assumed: list = dataclasses.field(default_factory=list)
    notes: list = dataclasses.field(default_factory=list)
    ends: list = dataclasses.field(default_factory=list)        # of --replay: entry, end and used draws
    entries: int = 0

    def accepted(self):
        """Says whether all of the unit was analysed."""
        return not self.faults


def shown_line(text):
    """Returns a line of source for a report: characters that a terminal would obey are shown as `?`."""
    text = text.encode("latin-1").decode("utf-8", "replace")
    return "".join(one if one.isprintable() or one == "\t" else "?" for one in text)


class Analysis:
    """Analyses one unit in a folder of its own."""

    def __init__(self, compilation, folder, options, program):
        self.compilation, self.folder, self.options, self.program = compilation, folder, options, program
        self.outcome = Outcome(compilation.source, notes=list(compilation.notes))
        self.refused_whole = False      # a refusal that does not depend on the entry has come
        self.analysed = False           # ccheck has accepted the unit from some entry on
        self.started = {}               # functions at which runs started, by what they were called with

    def run(self):
        """Returns the outcome."""
        try:
            self.prepare()
            entries = entries_of(self.sources, self.facts, self.types, self.options)
            if entries[0].function == "main" and not self.options.entry and not self.analyse(entries.pop(0)):
                entries = library_entries(self.sources, self.facts, self.types, self.options)
            self.analyse_all(entries)
        except (UnitFault, CommandFault) as fault:
            self.outcome.faults.append(Fault(str(fault)))
        self.outcome.diagnostics = sorted(set(self.outcome.diagnostics), key=self.order)
        self.outcome.assumed += [Assumption(f"runs start at {', '.join(names)}, {passed}")
                                 for passed, names in self.started.items()]
        self.outcome.assumed = list(dict.fromkeys(self.outcome.assumed)) if self.analysed else []
        return self.outcome

    def order(self, diagnostic):
        """Returns the key by which diagnostics are sorted: those of the unit come first."""
        return (diagnostic.file != self.outcome.unit, diagnostic)

    def prepare(self):
        """Reads the files of the unit and makes their copies."""
        self.model = model_of(self.options.model or self.compilation.model, self.compilation.char_signed)
        self.sources = Sources(self.compilation, stub_folder())
        self.outcome.unit = self.sources.unit.shown
        self.facts, self.types = Facts(self.sources), Types(self.sources)
        stubs = stub_functions(self.sources.stubs)
        self.including = Including(self.sources, self.facts, self.model, self.options, stubs)
        used = self.including.used_stubs()
        told = rewrite(self.sources, self.facts, BUILT_IN | set(used))
        lines, stand_in_told, self.without = stand_ins(self.facts, self.types, stubs, self.options.objects)
        self.after = (INPUT_LINES if lines else []) + lines
        self.outcome.assumed += told + self.including.told + stand_in_told + self.stubs_told(used)
        self.outcome.notes += self.notes()
        self.including.write_copies(self.folder)
        self.copies = {f"{self.folder}/{copy_name(key)}": it for key, it in self.sources.files.items()}

    def stubs_told(self, used):
        """Returns what the used stub functions assume, by the comment at their beginning."""
        told = []
        for name, path in used.items():
            with open(path, encoding="latin-1") as file:
                found = ASSUMES.search(file.read())
            told.append(Assumption(f"{name} is the stub of ccheck" + (f": {found[1]}" if found else "")))
        for path, source in self.sources.stub_files.items():
            found = ASSUMES.search(source.text)
            name = os.path.relpath(path, self.sources.stubs)
            if name in BUILT_IN_HEADERS:
                continue
            told.append(Assumption(f"<{name}> is the stub of ccheck" + (f": {found[1]}" if found else "")))
        return told

    def notes(self):
        """Returns warnings that change nothing of the analysis."""
        found = [f"the directory {it} is not searched; ccheck's stub headers are taken" for it in self.sources.left_out]
        known = self.facts.macros | {it.partition("(")[0] for it in self.including.macros} | {"__STDC__", "__cplusplus"}
        known |= {text.partition("=")[0] for _, text in self.compilation.macros}
        unknown = sorted(it for it in self.facts.conditions if it not in known)
        found += [f"the pragma {word} in {place} changes what a compiler does and is passed over here"
                  for word, place in self.facts.pragmas.items()]
        for name in unknown:
            found.append(f"a condition in {self.facts.conditions[name]} depends on {name}, which is not defined here "
                         "(-D or -U settles it)")
        return found

    def call(self, verb, entry):
        """Writes the unit for an entry and runs ccheck. Returns its status and its report."""
        self.including.write_unit(self.folder, [*self.after, *entry.lines])
        unit = f"{self.folder}/{UNIT}"
        words = [verb, unit, *self.including.directories(self.folder), "--entry", entry.name]
        model = f"{self.folder}/model.toml"
        if self.model.option(model) == model:
            write_file(model, self.model.as_toml())
        words += ["--model", self.model.option(model)]
        words += ["--turns", str(self.options.turns)] if verb == "check" and self.options.turns else []
        if verb == "replay":
            words += ["--steps", str(self.options.steps)]
            words += ["--draws", self.options.draws] if self.options.draws else []
        return self.result(words)

    def result(self, words):
        """Runs ccheck over the words of a command line."""
        try:
            done = subprocess.run([self.program, *words], stdout=subprocess.PIPE, timeout=self.options.timeout or None,
                                  check=False)
        except subprocess.TimeoutExpired:
            return None, reports.Report(answer=f"ccheck did not end within {self.options.timeout} seconds (--timeout)")
        except OSError as fault:
            raise UnitFault(f"{self.program} could not be started: {fault.strerror}") from fault
        return done.returncode, reports.read_text(reports.decoded(done.stdout))

    def analyse_all(self, entries):
        """Analyses the unit from each entry on. At least one of them has to be there."""
        for entry in entries:
            if self.refused_whole:
                break
            self.analyse(entry)
        if not self.outcome.entries:
            text = "none of the functions that were found is in a group that is taken here; --entry can name one"
            self.outcome.faults.append(Fault(text, "NoEntry"))

    def analyse(self, entry):
        """Analyses the unit from one entry on. Says whether the entry is in the unit."""
        if entry.probe and entry.fault and not self.defines(entry):
            return False
        if entry.fault:
            self.outcome.entries += 1
            self.outcome.faults.append(Fault(entry.fault, "NoEntry"))
            return True
        status, report = self.checked(entry)
        if report.refusal and report.refusal.word in ("NoEntry", "Undeclared") and not self.defines(entry):
            return False
        self.outcome.entries += 1
        if status in (reports.CLEAN, reports.FOUND):
            self.analysed = True
            self.outcome.assumed += entry.told
            if entry.passed:
                self.started.setdefault(entry.passed, []).append(entry.function)
            self.outcome.diagnostics += [self.mapped(it) for it in report.diagnostics]
            if self.options.replay:
                self.outcome.ends.append((entry.shown, report.end, report.used))
        else:
            self.add_fault(status, report)
        return True

    def checked(self, entry):
        """Runs ccheck from an entry, without macros of ours that the unit defines itself."""
        verb = "replay" if self.options.replay else "check"
        status, report = self.call(verb, entry)
        while status == reports.REFUSED and (self.drops_macro(report.refusal) or self.drops_stub(report.refusal)):
            status, report = self.call(verb, entry)
        return status, report

    def drops_stub(self, refusal):
        """Leaves out a stub function, where the unit has its name for something else."""
        if refusal is None or refusal.word != "Redeclared":
            return False
        source, line, column = self.place(refusal)
        name = tokens_from(source, line, column)[:1] if source else []
        if not name or name[0].text not in self.including.used_stubs():
            return False
        self.including.other_names.add(name[0].text)
        prefix = f"{name[0].text} is the stub of ccheck"
        self.outcome.assumed = [it for it in self.outcome.assumed if not it.sentence.startswith(prefix)]
        return True

    def defines(self, entry):
        """Says whether the function of an entry is in a group of the unit that is taken."""
        lines = entry.lines or entry.probe
        if not lines or entry.shown == "nothing":
            return True
        _, report = self.call("check", Entry(ENTRY, entry.shown, lines))
        refusal = report.refusal
        missing = refusal and refusal.word == "Undeclared" and refusal.file == f"{self.folder}/{UNIT}"
        if missing:
            self.outcome.notes.append(f"{entry.function} is in a group that is not taken here, and is not analysed")
        return not missing

    def drops_macro(self, refusal):
        """Leaves out one of the macros before the unit, where the unit defines it in another way."""
        if refusal is None or refusal.word != "MacroRedefined":
            return False
        source, line, _ = self.place(refusal)
        text = source.edited.original.line(line) if source else ""
        name = MACRO_NAME.match(text.strip())
        ours = {it.partition("(")[0] for it in self.including.macros}
        if not name or name[1] not in ours or name[1] in self.including.left_out:
            return False
        self.including.left_out.add(name[1])
        return True

    def place(self, one):
        """Returns the source, the line and the column of a place of ccheck's report; no source outside of the tree."""
        source = self.copies.get(os.path.normpath(one.file))
        if source:
            return source, *source.edited.original_place(one.line, one.column)
        return None, one.line, one.column

    def mapped(self, one):
        """Returns a diagnostic or a refusal with the place that the user knows."""
        source, line, column = self.place(one)
        file = source.shown if source else self.own_name(one.file)
        return dataclasses.replace(one, file=file, line=line, column=column)

    def own_name(self, file):
        """Returns the name of a file that is not the user's: a stub, or the including unit."""
        if file.startswith(f"{self.folder}/functions/"):
            return self.sources.stubs + file[len(self.folder):]
        return f"{self.outcome.unit} (unit made by ccheck-cc)" if file == f"{self.folder}/{UNIT}" else file

    def add_fault(self, status, report):
        """Keeps why an entry was not analysed."""
        if report.refusal is None:
            text = report.answer if status is None else f"ccheck: {reports.status_words(status)}"
            text += f": {report.answer}" if report.answer and status is not None else ""
            fault = Fault(text, "status" if status is not None else "timeout")
        else:
            source, line, _ = self.place(report.refusal)
            mapped = self.mapped(report.refusal)
            self.refused_whole = report.refusal.word not in OF_ENTRY and source is not None
            word = f"{mapped.word} {mapped.rest}" if mapped.word in WITH_NAME else mapped.word
            text = shown_line(source.edited.original.line(line)) if source else ""
            fault = Fault(mapped.as_text(), word, mapped, text, explained(self, report.refusal))
        if fault not in self.outcome.faults:
            self.outcome.faults.append(fault)
