"""Pages on a project: one for each unit or file, and an index with counts."""
import collections
import html

from ccheck_tools import listing

STYLE = """
:root { --seen: #c62828; --open: #b26a00; --exact: #4456b8; }
body { font: 15px/1.5 system-ui, sans-serif; max-width: 76em; margin: 2em auto; padding: 0 1em; color: #1d2430; }
h1 { font-size: 1.6em; margin-bottom: .2em; } h2 { font-size: 1.15em; margin-top: 2em; }
a { color: #2456a6; } code, pre { font-family: ui-monospace, "DejaVu Sans Mono", monospace; font-size: 13px; }
pre { margin: 0; tab-size: 8; white-space: pre-wrap; } .legend span { padding: .1em .5em; margin-right: .8em; }
table { border-collapse: collapse; } .counts td, .counts th { padding: .25em .8em; border-bottom: 1px solid #dde2ea; }
.counts th { text-align: left; font-weight: 600; } .counts td.n { text-align: right; }
.listing { width: 100%; border: 1px solid #dde2ea; } .listing td { vertical-align: top; padding: 0 .7em; }
.listing td.number { color: #8792a2; text-align: right; width: 3em; user-select: none; background: #f6f8fa; }
tr.not td { background: #f3edfb; } mark.not { background: #6a3fa0; } .remark.not { border-color: #6a3fa0; }
tr.seen td { background: #fdecea; } tr.open td { background: #fff6e5; } tr.exact td { background: #eef1fd; }
mark { border-radius: 3px; padding: 0 1px; color: #fff; } mark.seen { background: var(--seen); }
mark.open { background: var(--open); } mark.exact { background: var(--exact); }
.remark { border-left: 4px solid; padding: .25em .8em !important; font-size: 14px; }
.remark.seen { border-color: var(--seen); background: #fff7f6; } .remark.open { border-color: var(--open); }
.remark.exact { border-color: var(--exact); } .remark .more { color: #46505f; } .remark .rule { font-weight: 600; }
.at { color: #8792a2; font-size: 12px; } .seen-text { color: var(--seen); font-weight: 600; }
.open-text { color: var(--open); } .exact-text { color: var(--exact); } .unread-text { color: #6a3fa0; }
.rules pre { background: #f6f8fa; padding: .6em .9em; } .rules table td { border: 1px solid #dde2ea; padding: .2em .6em; }
"""
LEGEND = {
    "seen": "a run shows it",
    "open": "a run may break the rule; none was found that does",
    "exact": "a rule on the text is broken",
}


def page(title, body, kind=""):
    """Returns a whole page."""
    return (f'<!DOCTYPE html>\n<html lang="en"><head><meta charset="utf-8"><title>{html.escape(title)}</title>'
            f'<meta name="viewport" content="width=device-width"><style>{STYLE}</style></head>\n'
            f'<body class="{kind}"><h1>{html.escape(title)}</h1>\n{body}\n</body></html>\n')


def counts_of(shown):
    """Returns how many diagnostics each kind has."""
    return collections.Counter(it.kind for it in shown)


def sentence(shown, has_searched):
    """Returns the counts of diagnostics in words."""
    counts = counts_of(shown)
    total = sum(counts.values())
    parts = [f"<b>{total} diagnostic{'' if total == 1 else 's'}</b>"]
    if has_searched:
        parts.append(f'<span class="seen-text">{counts["seen"]} shown by a run</span>')
    parts.append(f'<span class="open-text">{counts["open"]} {"without a run" if has_searched else "on runs"}</span>')
    parts.append(f'<span class="exact-text">{counts["exact"]} on the text</span>')
    return ", ".join(parts)


def rule_table(shown, has_searched):
    """Returns a table that counts by rule."""
    rules = collections.defaultdict(list)
    for it in shown:
        rules[it.one.rule].append(it)
    rows = "".join(
        f'<tr><td><a href="rules.html#{rule}">{rule}</a></td><td>{html.escape(its[0].one.text)}</td>'
        f'<td class="n">{len(its)}</td>{seen_cell(its, has_searched)}</tr>'
        for rule, its in sorted(rules.items(), key=lambda it: (-len(it[1]), it[0])))
    head = "<tr><th>rule</th><th></th><th>diagnostics</th><th>shown by a run</th></tr>"
    return f'<table class="counts">{head}{rows}</table>' if rows else ""


def seen_cell(shown, has_searched):
    """Returns a cell with how many have a run, or a dash where none was looked for."""
    seen = counts_of(shown)["seen"]
    return f'<td class="n{" seen-text" if seen else ""}">{seen if has_searched else "-"}</td>'


def legend(has_searched):
    """Returns the meaning of the colours."""
    words = dict(LEGEND) if has_searched else {"open": "a run may break the rule", "exact": LEGEND["exact"]}
    return '<p class="legend">' + "".join(f'<span class="remark {kind}">{text}</span>' for kind, text in words.items()) \
        + "</p>"


def unit_page(unit, has_searched, call):
    """Returns the page of a unit: `unit` has a name, files as pairs of name and bytes, and what is shown in them."""
    body = [f'<p><a href="index.html">All units</a>. Made by <code>{html.escape(call)}</code>.</p>',
            "" if unit.refusal and not unit.shown else f"<p>{sentence(unit.shown, has_searched)}</p>", rule_table(unit.shown, has_searched),
            legend(has_searched) if unit.shown else ""]
    if unit.refusal:
        body.append(f'<p class="unread-text">Not analysed: {html.escape(unit.refusal)}</p>')
    for name, data in unit.files:
        here = [it for it in [*unit.shown, *unit.refused] if it.one.file == name]
        body.append(listing.file_section(name, data, here, has_searched))
    return page(unit.name, "\n".join(body))


def index_page(units, has_searched):
    """Returns the index."""
    shown = [it for unit in units for it in unit.shown]
    refused = [it for it in units if it.refusal]
    rows = []
    for unit in sorted(units, key=lambda it: (-counts_of(it.shown)["seen"], -len(it.shown), it.name)):
        counts = counts_of(unit.shown)
        state = f'<span class="unread-text">not analysed: {html.escape(unit.refusal)}</span>' if unit.refusal else \
            "no diagnostic" if not unit.shown else ""
        name = f'<td><a href="{unit.page}">{html.escape(unit.name)}</a></td>'
        cells = '<td class="n">-</td>' * 3 if unit.refusal and not unit.shown else \
            f'<td class="n">{len(unit.shown)}</td>{seen_cell(unit.shown, has_searched)}<td class="n">{counts["exact"]}</td>'
        rows.append(f"<tr>{name}{cells}<td>{state}</td></tr>")
    head = "<tr><th>unit</th><th>diagnostics</th><th>shown by a run</th><th>on the text</th><th></th></tr>"
    body = [f"<p>{len(units)} unit{'' if len(units) == 1 else 's'}, {len(refused)} not analysed: "
            f"{sentence(shown, has_searched)}.</p>", f'<table class="counts">{head}{"".join(rows)}</table>',
            "<h2>By rule</h2>", rule_table(shown, has_searched) or "<p>No diagnostic.</p>"]
    return page("ccheck", "\n".join(body))
