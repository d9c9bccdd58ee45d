"""Completion for bash and zsh, and the manual pages of the tools."""
import glob
import os
import re

from tooling import ROOT, ToolTest, needs

ASK = """source {root}/completion/ccheck.bash
COMP_WORDS=({words}); COMP_CWORD=$(({count} - 1)); COMPREPLY=(); _ccheck; printf '%s\\n' "${{COMPREPLY[@]}}"
"""
ASK_ZSH = """
zmodload zsh/zpty
zpty shell zsh -f -i
zpty -w shell 'PS1= ; fpath=({root}/completion $fpath); autoload -U compinit; compinit -u -D; cd {folder}'
zpty -w shell 'bindkey "^I" complete-word; zstyle ":completion:*" list-prompt ""; LISTMAX=1000; print re""ady'
zpty -r -m shell line '*ready*' >/dev/null
zpty -w -n shell $'{line}\\t'
sleep 1
zpty -w shell $'\\C-a: \\C-e'
zpty -r -t shell line; print -r -- "$line"
while zpty -r -t shell line; do print -r -- "$line"; done
zpty -d shell
"""


class Bash(ToolTest):
    """What bash offers."""

    def offered(self, *words):
        """Returns what is offered for the last of these words."""
        needs("bash")
        quoted = " ".join(f"'{it}'" for it in words)
        text = ASK.format(root=ROOT, words=quoted, count=len(words))
        status, out, why = self.call("bash", "-c", text)
        self.assertEqual((status, why), (0, ""))
        return sorted(out.split())

    def test_verbs_options_values_and_files(self):
        self.file("src/unit.c", "")
        self.file("src/base.json", "")
        self.assertEqual(self.offered("ccheck", "ch"), ["check"])
        self.assertEqual(self.offered("ccheck", "check", "src/"), ["src/unit.c"])
        self.assertEqual(self.offered("ccheck", "check", "a.c", "--m"), ["--model"])
        self.assertEqual(self.offered("ccheck", "check", "a.c", "--model", ""), ["ilp32", "llp64", "lp64"])
        self.assertEqual(self.offered("ccheck", "check", "a.c", "--turns", ""), [])
        self.assertEqual(self.offered("ccheck-show", "explain", "in"), ["insufmem", "intoflow", "invptr"])
        self.assertEqual(self.offered("ccheck-baseline", "m"), ["make", "move"])
        self.assertEqual(self.offered("ccheck-baseline", "make", "src/b"), ["src/base.json"])
        self.assertIn("--objects", self.offered("ccheck-cc", "--o"))

    def test_each_option_of_a_tool_is_offered(self):
        for name in ("ccheck-html", "ccheck-baseline", "ccheck-draws", "show-me", "ccheck-cc"):
            text = self.tool(name, "--help", COLUMNS="80")[1]
            wanted = set(re.findall(r"(?<![\w-])--[a-z]+[a-z-]*", text)) - {"--back", "--draws", "--help"}
            words = {"ccheck-baseline": ["make", "b.json"]}.get(name, [])
            offered = set(self.offered(name, *words, "--"))
            for option in sorted(wanted - offered):
                self.fail(f"{name}: {option} is not offered")


class Zsh(ToolTest):
    """What zsh offers; a shell on a terminal of its own is asked."""

    def test_verbs_and_rules(self):
        needs("zsh")
        for line, wanted in (("ccheck ver", "verify"), ("ccheck-show explain swt", "swtchdflt"),
                             ("ccheck-baseline shr", "shrink")):
            script = ASK_ZSH.format(root=ROOT, folder=self.folder, line=line)
            text = self.call("timeout", "20", "zsh", "-f", "-c", script)[1]
            self.assertIn(wanted, re.sub(r"\x1b\[[\d;?]*[A-Za-z]|[\x00-\x1f]", "", text), line)

    def test_the_file_parses(self):
        needs("zsh")
        self.assertEqual(self.call("zsh", "-n", f"{ROOT}/completion/_ccheck")[0], 0)


class Pages(ToolTest):
    """The manual pages."""

    def test_they_are_what_the_tools_print(self):
        self.assertEqual(self.call(f"{ROOT}/packaging/make-man", "--check"), (0, "", ""))

    def test_they_are_formatted_without_a_warning(self):
        needs("man", "groff")
        for path in sorted(glob.glob(f"{ROOT}/man/*.1")):
            status, text, why = self.call("man", "--warnings", "-l", path, MANWIDTH="100")
            self.assertEqual((status, why), (0, ""), os.path.basename(path))
            self.assertIn("NAME", text)
