"""One report of many units, in text, JSON or SARIF."""
import collections
import json

from ccheck_tools import reports

CLEAN, FOUND, NOT_ANALYSED = 0, 1, 2


def status_of(outcomes):
    """Returns the exit status: 2 where something was not analysed, else 1 where there is a diagnostic, else 0."""
    if any(not it.accepted() for it in outcomes):
        return NOT_ANALYSED
    return FOUND if any(it.diagnostics for it in outcomes) else CLEAN


def diagnostics_of(outcomes):
    """Returns the diagnostics of all units, each once, in the order of the units."""
    return list(dict.fromkeys(it for one in outcomes for it in one.diagnostics))


def as_text(outcomes):
    """Returns the report as text."""
    lines = [it.as_text() for it in diagnostics_of(outcomes)]
    lines += all_fault_lines(outcomes)
    for one in outcomes:
        lines += [f"{one.unit}: run from {entry}: end: {end}, {used} draws used" for entry, end, used in one.ends]
    lines += section("assumed", [(one.unit, it.as_text(), it.file != "") for one in outcomes for it in one.assumed])
    lines += section("note", [(one.unit, it, False) for one in outcomes for it in one.notes])
    return "\n".join([*lines, *summary(outcomes)]) + "\n"


def all_fault_lines(outcomes):
    """Returns the lines on all that was not analysed. The same refusal of several units is printed once."""
    units, first = collections.defaultdict(list), {}
    for one in outcomes:
        for fault in one.faults:
            key = (fault.text, fault.reason) if fault.refusal else (one.unit, fault.text)
            units[key].append(one.unit)
            first.setdefault(key, (one, fault))
    lines = []
    for key, (one, fault) in first.items():
        lines += fault_lines(one, fault)
        if len(units[key]) > 1:
            lines.append(f"    in {len(units[key])} units: {', '.join(units[key])}")
    return lines


def fault_lines(one, fault):
    """Returns the lines on something that was not analysed: the refusal, the line of source, the reason."""
    if fault.refusal is None:
        return [f"{one.unit}: not analysed: {fault.text}"]
    lines = [fault.text]
    if fault.line.strip():
        lines.append("    " + fault.line.strip())
    if fault.reason:
        lines.append(f"    not analysed: {fault.reason}")
    return lines


def section(word, items):
    """Returns lines `WORD: SENTENCE (UNITS)`, one for each sentence. A sentence with a place has no list of units."""
    units = collections.defaultdict(list)
    placed = set()
    for unit, sentence, has_place in items:
        units[sentence].append(unit)
        if has_place:
            placed.add(sentence)
    return [f"{word}: {it}" if it in placed else f"{word}: {unit_list(names)}: {it}" for it, names in units.items()]


def unit_list(names):
    """Returns names of units as a short list."""
    names = list(dict.fromkeys(names))
    return ", ".join(names) if len(names) <= 3 else f"{names[0]}, {names[1]} and {len(names) - 2} more units"


def summary(outcomes):
    """Returns the last lines, which count."""
    words = collections.Counter(it.word for one in outcomes for it in one.faults[:1])
    accepted = [it for it in outcomes if it.accepted()]
    clean = sum(1 for it in accepted if not it.diagnostics)
    found = len(diagnostics_of(outcomes))
    lines = [f"{count} not analysed: {word}" for word, count in words.most_common()]
    return [*lines, f"{plural(len(outcomes), 'unit')}: {len(accepted)} accepted, {clean} of them without diagnostics, "
                    f"{len(outcomes) - len(accepted)} not analysed; {plural(found, 'diagnostic')}"]


def plural(count, word):
    """Returns a count with its word."""
    return f"{count} {word}" if count == 1 else f"{count} {word}s"


def as_json(outcomes):
    """Returns the report as one line of JSON."""
    value = {"diagnostics": [vars(it) for it in diagnostics_of(outcomes)], "unit": "",
             "units": [unit_value(it) for it in outcomes], "status": status_of(outcomes)}
    return json.dumps(value, sort_keys=True, separators=(",", ":")) + "\n"


def unit_value(one):
    """Returns the JSON object of one unit."""
    value = {"unit": one.unit, "accepted": one.accepted(), "diagnostics": len(one.diagnostics), "entries": one.entries,
             "assumed": [it.as_text() for it in one.assumed], "notes": one.notes,
             "not_analysed": [fault_value(it) for it in one.faults]}
    if one.ends:
        value["ends"] = [{"entry": entry, "end": end, "used": used} for entry, end, used in one.ends]
    return value


def fault_value(fault):
    """Returns the JSON object of something that was not analysed."""
    value = {"text": fault.text, "reason": fault.reason, "source": fault.line, "word": fault.word}
    if fault.refusal:
        value.update(file=fault.refusal.file, line=fault.refusal.line, column=fault.refusal.column)
    return value


def as_sarif(outcomes):
    """Returns the report as one line of SARIF 2.1.0, with one run for all units."""
    notices = [notice("error", one.unit, fault_text(it)) for one in outcomes for it in one.faults]
    notices += [notice("note", one.unit, f"assumed: {it.as_text()}") for one in outcomes for it in one.assumed]
    notices += [notice("warning", one.unit, it) for one in outcomes for it in one.notes]
    run = {"tool": {"driver": {"name": "ccheck", "rules": rules()}},
           "results": [result(it) for it in diagnostics_of(outcomes)],
           "invocations": [{"executionSuccessful": status_of(outcomes) != NOT_ANALYSED,
                            "toolExecutionNotifications": notices}],
           "properties": {"units": [it.unit for it in outcomes],
                          "assumed": sorted({f"{one.unit}: {it.as_text()}" for one in outcomes for it in one.assumed})}}
    return json.dumps({"$schema": "https://json.schemastore.org/sarif-2.1.0.json", "version": "2.1.0", "runs": [run]},
                      sort_keys=True, separators=(",", ":")) + "\n"


def fault_text(fault):
    """Returns a fault as one sentence."""
    return f"{fault.text}: {fault.reason}" if fault.reason else fault.text


def notice(level, unit, text):
    """Returns a SARIF notification about a unit."""
    place = {"physicalLocation": {"artifactLocation": {"uri": reports.uri_of(unit)}}}
    return {"level": level, "message": {"text": text}, "locations": [place]}


def rules():
    """Returns the SARIF descriptions of the rules."""
    return [{"id": tag, "shortDescription": {"text": text}} for tag, text in reports.RULES.items()]


def result(one):
    """Returns a diagnostic as a SARIF result, with the parts that `ccheck gate` compares."""
    place = {"artifactLocation": {"uri": reports.uri_of(one.file)},
             "region": {"startLine": one.line, "startColumn": one.column}}
    return {"ruleId": one.rule, "level": "warning", "message": {"text": one.text},
            "locations": [{"physicalLocation": place}]}


FORMATS = {"text": as_text, "json": as_json, "sarif": as_sarif}
