"""ccheck-html: the pages, their links, and what a browser makes of them."""
import html.parser
import os
import shutil

from ccheck_tools import markdown
from tooling import EXAMPLES, ToolTest, needs

VOID = {"meta", "br", "link", "img", "hr"}


class Page(html.parser.HTMLParser):
    """Reads a page: its text, links and anchors; tags that do not match are faults."""

    def __init__(self, text):
        super().__init__()
        self.open, self.links, self.anchors, self.faults, self.words = [], [], set(), [], []
        self.classes = []
        self.feed(text)

    def handle_starttag(self, tag, attrs):
        values = dict(attrs)
        self.anchors.add(values.get("id"))
        self.links += [values["href"]] if "href" in values else []
        self.classes += (values.get("class") or "").split()
        if tag not in VOID:
            self.open.append(tag)

    def handle_endtag(self, tag):
        if not self.open or self.open.pop() != tag:
            self.faults.append(tag)

    def handle_data(self, data):
        self.words.append(data)


class Pages(ToolTest):
    """Pages of a few units."""

    def pages(self, *words):
        """Runs the tool into pages/ and reads what it wrote."""
        status, text, why = self.tool("ccheck-html", "--out", "pages", *words)
        self.assertIn("pages, from pages/index.html", text, why)
        found = {}
        for name in os.listdir(f"{self.folder}/pages"):
            with open(f"{self.folder}/pages/{name}", encoding="utf-8") as file:
                found[name] = Page(file.read())
        for name, page in found.items():
            self.assertEqual((page.open, page.faults), ([], []), name)
            for link in page.links:
                target, _, anchor = link.partition("#")
                if ":" not in link:
                    self.assertIn(target or name, found)
                    self.assertTrue(not anchor or anchor in found[target or name].anchors, f"{name}: {link}")
        return status, found

    def test_a_run_is_red_and_has_its_input(self):
        self.file("a.c", '#include <stdio.h>\nint main(void)\n{\n    int c = getchar();\n    if (c == \'<\')\n'
                         "        return 1 / (c - '<');\n    if (c = 2)\n        return 0;\n    return 0;\n}\n")
        self.file("b.c", "int main(void) { return 0; }\n")
        status, found = self.pages("--runs", "--tries", "300", "a.c", "b.c")
        self.assertEqual(status, 0)
        text = "".join(found["a.c.html"].words)
        self.assertIn('A run shows it, over the input "<"', text)
        self.assertIn("Draws: 60", text)
        self.assertIn("seen", found["a.c.html"].classes)
        self.assertIn("exact", found["a.c.html"].classes)
        self.assertIn("no diagnostic", "".join(found["index.html"].words))

    def test_headers_options_and_refused_units(self):
        shutil.copytree(f"{EXAMPLES}/project", self.folder, dirs_exist_ok=True)
        self.file("src/bad.c", 'int a = 1; /* <b> & "x" */ int price@;\n')
        status, found = self.pages("src/average.c", "src/bad.c", "--", "include")
        self.assertEqual(status, 2)
        text = "".join(found["src_average.c.html"].words)
        self.assertIn("src/../include/ring.h" if "src/../include/ring.h" in text else "include/ring.h", text)
        self.assertIn("refused: BadByte", "".join(found["index.html"].words))
        text = "".join(found["src_bad.c.html"].words)
        self.assertIn('/* <b> & "x" */', text)
        self.assertIn("refused: BadByte column 37", text)

    def test_reports_of_ccheck_and_of_the_driver(self):
        self.file("a.c", "int main(void) { int z = 0; return 1 / z; }\n")
        for name in ("json", "sarif"):
            self.file("report", self.ccheck("check", "a.c", "--format", name)[1])
            status, found = self.pages("--report", "report")
            self.assertEqual(status, 0)
            self.assertIn("division is undefined", "".join(found["a.c.html"].words))
        self.file("b.c", "union u { int i; };\nint main(void) { return 0; }\n")
        self.file("c.c", "int main(void) { return 0; }\n")
        for name in ("json", "sarif"):
            self.file("report", self.tool("ccheck-cc", "a.c", "b.c", "c.c", "missing.c", "--format", name)[1])
            status, found = self.pages("--report", "report")
            self.assertEqual(status, 2)
            text = "".join(found["index.html"].words)
            self.assertIn("refused: Unsupported union", text)
            self.assertIn("missing.c could not be read", text)
            self.assertIn("c.c.html", found)

    def test_the_page_on_the_rules_has_each_of_them(self):
        self.file("a.c", "int main(void) { return 0; }\n")
        rules = self.pages("a.c")[1]["rules.html"]
        self.assertTrue({"diverr", "xfree", "boolasgn"} <= rules.anchors)

    def test_faults(self):
        self.assertEqual(self.tool("ccheck-html")[0], 2)
        self.assertEqual(self.tool("ccheck-html", "--report", "missing")[0], 2)
        self.file("pages", "a file\n")
        self.file("a.c", "int main(void) { return 0; }\n")
        self.assertEqual(self.tool("ccheck-html", "--out", "pages", "a.c")[0], 2)

    def test_a_browser_shows_it(self):
        needs("chromium")
        self.pages("--runs", "--tries", "200", f"{EXAMPLES}/average.c")
        name = next(it for it in os.listdir(f"{self.folder}/pages") if it.endswith("average.c.html"))
        words = ["chromium", "--headless", "--no-sandbox", "--disable-gpu", f"--user-data-dir={self.folder}/profile",
                 f"--screenshot={self.folder}/page.png", "--window-size=900,900", f"file://{self.folder}/pages/{name}"]
        status, _, why = self.call("timeout", "60", *words)
        self.assertEqual(status, 0, why[-500:])
        with open(f"{self.folder}/page.png", "rb") as file:
            data = file.read()
        self.assertEqual(data[:8], b"\x89PNG\r\n\x1a\n")
        self.assertGreater(len(data), 20000)


class Markdown(ToolTest):
    """What the pages of docs/ use."""

    def test_pieces(self):
        for text, wanted in (("**`--turns K`**: a", "<p><b><code>--turns K</code></b>: a</p>"),
                             ("a *may* `*p` < `q*`", "<p>a <i>may</i> <code>*p</code> &lt; <code>q*</code></p>"),
                             ("- one\n  more\n- two", "<ul><li>one\n  more</li><li>two</li></ul>"),
                             ("## The `run`", '<h2 id="the-run">The <code>run</code></h2>'),
                             ("[x](#y) [z](other.md#y)", '<p><a href="#y">x</a> z</p>'),
                             ("```c bad\na < b\n```", "<pre>a &lt; b</pre>"),
                             ("| a | b |\n|---|---|\n| `c` | d |",
                              "<table><tr><td>a</td><td>b</td></tr><tr><td><code>c</code></td><td>d</td></tr></table>")):
            self.assertEqual(markdown.as_html(text), wanted)
