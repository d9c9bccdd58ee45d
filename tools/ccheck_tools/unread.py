"""The units that a report of ccheck-cc says were not analysed. A report without them would look clean."""
import json
from typing import NamedTuple
from urllib.parse import unquote

from ccheck_tools import reports


class Unread(NamedTuple):
    """A unit that was not analysed, and why."""
    unit: str
    why: str


def of_text(text):
    """Returns the units that a report in JSON or SARIF says were not analysed; none for a report in text."""
    if not text.lstrip().startswith("{"):
        return []
    try:
        value = json.loads(text)
    except ValueError as fault:
        raise reports.NotAReport(f"the text begins as JSON and is not JSON: {fault}") from fault
    try:
        return of_sarif(value) if "runs" in value else of_json(value)
    except (KeyError, TypeError, AttributeError, IndexError) as fault:
        raise reports.NotAReport("the report has another form than that of ccheck or ccheck-cc") from fault


def of_json(value):
    """Returns those of JSON."""
    return [Unread(unit["unit"], one["text"] + (f": {one['reason']}" if one.get("reason") else ""))
            for unit in value.get("units", ()) for one in unit.get("not_analysed", ())]


def of_sarif(value):
    """Returns those of SARIF: the notifications that are errors."""
    found = []
    for run in value["runs"]:
        for call in run.get("invocations", ()):
            for one in call.get("toolExecutionNotifications", ()):
                if one.get("level") == "error":
                    places = one.get("locations") or [{"physicalLocation": {"artifactLocation": {"uri": ""}}}]
                    uri = places[0]["physicalLocation"]["artifactLocation"]["uri"]
                    found.append(Unread(unquote(uri, errors="surrogateescape"), one["message"]["text"]))
    return found


def accepted_units(text):
    """Returns the names of the units that a report in JSON says were accepted."""
    value = json.loads(text) if text.lstrip().startswith("{") else {}
    return [it["unit"] for it in value.get("units", ()) if it.get("accepted")]
