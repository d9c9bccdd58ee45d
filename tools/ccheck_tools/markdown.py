"""The pages of docs/ as HTML: headings, paragraphs, lists, tables, code, and links."""
import html
import re


def anchor_of(heading):
    """Returns the anchor of a heading."""
    return re.sub(r"[^\w\- ]", "", heading.lower()).replace(" ", "-")


def inline(text):
    """Returns a piece of a paragraph as HTML."""
    codes = []

    def kept(match):
        codes.append(f"<code>{html.escape(match[1])}</code>")
        return f"\0{len(codes) - 1}\0"

    made = marked(re.sub(r"`([^`]+)`", kept, text))
    return re.sub("\0(\\d+)\0", lambda match: codes[int(match[1])], made)


def marked(text):
    """Returns text without code as HTML."""
    text = html.escape(text, quote=False)
    text = re.sub(r"\*\*([^*]+)\*\*", r"<b>\1</b>", text)
    text = re.sub(r"\*([^*]+)\*", r"<i>\1</i>", text)
    return re.sub(r"\[([^\]]+)\]\((#[^)]*|[a-z]+:[^)]*)\)|\[([^\]]+)\]\([^)]*\)", link, text)


def link(match):
    """Returns a link within the page or to the web as it is, and the words of any other."""
    return f'<a href="{match[2]}">{match[1]}</a>' if match[2] else match[3]


def table(lines):
    """Returns the lines of a table as HTML."""
    rows = [re.split(r"(?<!\\)\|", it.strip().strip("|")) for it in lines]
    rows = [it for it in rows if not all(re.fullmatch(r"\s*:?-+:?\s*", cell) for cell in it)]
    return "<table>" + "".join("<tr>" + "".join(f"<td>{inline(cell.strip())}</td>" for cell in it) + "</tr>"
                               for it in rows) + "</table>"


def block(lines):
    """Returns a paragraph, a list, a table or a heading as HTML."""
    heading = re.match(r"(#+) (.+)", lines[0])
    if heading:
        size = len(heading[1])
        return f'<h{size} id="{anchor_of(heading[2])}">{inline(heading[2])}</h{size}>'
    if lines[0].startswith("|"):
        return table(lines)
    if lines[0].startswith("- "):
        items = re.split(r"\n- ", "\n".join(lines)[2:])
        return "<ul>" + "".join(f"<li>{inline(it)}</li>" for it in items) + "</ul>"
    text = "\n".join(re.sub("^> ?", "", it) for it in lines)
    return f"<p>{inline(text)}</p>"


def as_html(text):
    """Returns a page as HTML without its head."""
    made, lines, code = [], [], None

    def close():
        if lines:
            made.append(block(lines))
            lines.clear()

    for line in re.sub(r"<!--.*?-->", "", text, flags=re.S).split("\n"):
        if line.startswith("```"):
            close()
            if code is not None:
                made.append(f"<pre>{html.escape(chr(10).join(code))}</pre>")
            code = None if code is not None else []
        elif code is not None:
            code.append(line)
        elif not line.strip():
            close()
        else:
            if line.startswith("#"):
                close()
            lines.append(line)
            if line.startswith("#"):
                close()
    close()
    return "\n".join(made)
