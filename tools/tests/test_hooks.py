"""Hooks before a commit: that of examples/project, and those for pre-commit."""
import os
import re
import shutil

from tooling import EXAMPLES, ROOT, ToolTest, needs, write

BAD = "int main(void) { int z = 0; return 1 / z; }\n"
CONFIG = """repos:
  - repo: {root}
    rev: {commit}
    hooks:
      - id: {hook}
        args: [-I, include]
"""


class Hooks(ToolTest):
    """In a repository of the test."""

    def setUp(self):
        super().setUp()
        needs("git")
        self.environment.update(GIT_AUTHOR_NAME="t", GIT_AUTHOR_EMAIL="t@localhost", GIT_COMMITTER_NAME="t",
                                GIT_COMMITTER_EMAIL="t@localhost", PRE_COMMIT_HOME=f"{self.folder}/cache",
                                GIT_CONFIG_GLOBAL="/dev/null")
        os.makedirs(f"{self.folder}/bin")
        os.symlink(self.program, f"{self.folder}/bin/ccheck")
        self.environment["PATH"] = f"{self.folder}/bin:{self.environment['PATH']}"
        self.project = f"{self.folder}/project"
        os.makedirs(self.project)
        self.git("init", "-q")

    def git(self, *words):
        """Runs git in the project."""
        return self.call("git", *words, folder=self.project)

    def commit(self, name, text):
        """Commits a file; returns the status and what was printed."""
        write(f"{self.project}/{name}", text)
        self.git("add", name)
        status, out, why = self.git("commit", "-qm", "a change")
        return status, out + why

    def test_the_hook_of_the_example(self):
        needs("make", "jq")
        shutil.copytree(f"{EXAMPLES}/project", self.project, dirs_exist_ok=True)
        self.git("add", ".")
        self.assertEqual(self.git("commit", "-qm", "the example")[0], 0)
        os.symlink("../../hooks/pre-commit", f"{self.project}/.git/hooks/pre-commit")
        self.assertEqual(self.commit("src/more.c", "int main(void) { return 0; }\n")[0], 0)
        status, text = self.commit("src/bad.c", BAD)
        self.assertNotEqual(status, 0)
        self.assertIn("src/bad.c:1:38: diverr", text)

    def tree(self):
        """Makes a repository of the tools as they are now; returns its commit."""
        folder = f"{self.folder}/tree"
        for name in ("tools", "include"):
            shutil.copytree(f"{ROOT}/{name}", f"{folder}/{name}", ignore=shutil.ignore_patterns("tests", "__pycache__"))
        shutil.copy(f"{ROOT}/.pre-commit-hooks.yaml", folder)
        for words in (["init", "-q"], ["add", "-A"], ["commit", "-qm", "tools"]):
            self.assertEqual(self.call("git", *words, folder=folder)[0], 0)
        return folder, self.call("git", "rev-parse", "HEAD", folder=folder)[1].strip()

    def test_the_hooks_of_pre_commit(self):
        needs("pre-commit")
        folder, commit = self.tree()
        write(f"{self.project}/include/part.h", "#define PART 3\n")
        write(f"{self.project}/.pre-commit-config.yaml", CONFIG.format(root=folder, commit=commit, hook="ccheck"))
        self.git("add", ".")
        self.assertEqual(self.call("pre-commit", "install", folder=self.project)[0], 0)
        status, text = self.commit("a.c", '#include "part.h"\nint main(void) { return PART; }\n')
        self.assertEqual(status, 0, text)
        status, text = self.commit("bad.c", BAD)
        self.assertNotEqual(status, 0)
        self.assertIn("bad.c:1:38: diverr", text)
        write(f"{self.project}/.pre-commit-config.yaml", CONFIG.format(root=folder, commit=commit, hook="ccheck-baseline"))
        self.git("add", ".")
        self.assertEqual(self.tool("ccheck-baseline", "make", "baseline.json", "bad.c", folder=self.project)[0], 0)
        status, text = self.commit("bad.c", BAD + "\n")
        self.assertEqual(status, 0, text)

    def test_the_entries_of_the_hooks_are_there(self):
        with open(f"{ROOT}/.pre-commit-hooks.yaml", encoding="utf-8") as file:
            entries = re.findall(r"^  entry: (\S+)", file.read(), re.M)
        self.assertEqual(len(entries), 2)
        for entry in entries:
            self.assertTrue(os.access(f"{ROOT}/{entry}", os.X_OK), entry)
