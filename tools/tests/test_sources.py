"""Tests of what tools read in the sources, over a small tree: python3 -m unittest discover tools/tests"""
import importlib.machinery
import importlib.util
import os
import sys
import tempfile
import unittest

TOOLS = os.path.realpath(os.path.join(os.path.dirname(__file__), ".."))
sys.dont_write_bytecode = True
sys.path.insert(0, TOOLS)
import check_docs  # noqa: E402
import contracts  # noqa: E402
import definitions  # noqa: E402

FILES = {
    "crates.txt": "# crates\nlow:\ntop: low\n",
    "crates/low/specs/Lib.antt": "pub mod Words\npub mod Trees\n",
    "crates/low/specs/Words.antt": """-- words
use Rattle.std.specs.Prelude.{List}
use Rattle.low.specs.Trees as tree
use Rattle.low.specs.Trees.{Tree, depth, unused}

-- a record
pub record HoldsAll (t : Tree) : Type 0 where
  pub first : IsSmall t
  pub second : Hidden

abbrev pub IsSmall : Tree -> Type 0
IsSmall (tree.Leaf unused) = unused
IsSmall t = depth t

abbrev pub Hidden : Type 0
Hidden = List
""",
    "crates/low/specs/Trees.antt": """mutual
  pub data Tree : Type 0 where
    Leaf : (at : Place) -> Tree
    Fork : Tree -> Tree

use Rattle.low.specs.declared.places.Place.{Place}

abbrev pub depth : Tree -> Tree
depth (Leaf at) = Leaf at

abbrev pub unused : Tree -> Tree
unused t = t
""",
    "crates/low/src/lib.rt": "mod places;\n\npub use places::{Place, find};\n",
    "crates/low/src/places.rt": """ghost use Rattle.low.specs.Words.{HoldsAll, IsSmall};

/// A place.
pub struct Place {
    // its line
    pub line: u32,
}

impl Place {
    /// Its line. And more.
    pub fn line(&self) -> u32
        ensures { result \u2261 self.now.line }
    {
        self.line
    }

    fn hidden(&self) {}
}

/// Finds a tree.
pub fn find(z: &[u8; 4]) -> Option<u32>
    requires { z }
    ensures all { HoldsAll z }
    ensures small { IsSmall z }
{
    None
}
""",
    "crates/top/src/lib.rt": "mod theorems;\n\npub use theorems::all_is_small;\n",
    "crates/top/src/theorems.rt": "pub fn all_is_small()\n    ensures { IsSmall }\n{}\n",
}


class OverATree(unittest.TestCase):
    def setUp(self):
        self.folder = tempfile.TemporaryDirectory()
        for path, text in FILES.items():
            file = os.path.join(self.folder.name, path)
            os.makedirs(os.path.dirname(file), exist_ok=True)
            with open(file, "w", encoding="utf-8") as out:
                out.write(text)
        self.old = definitions.ROOT
        self.enter(self.folder.name)

    def tearDown(self):
        self.enter(self.old)
        self.folder.cleanup()

    def enter(self, root):
        definitions.ROOT = check_docs.ROOT = root
        for module in (definitions, contracts):
            for it in vars(module).values():
                if hasattr(it, "cache_clear"):
                    it.cache_clear()


class Definitions(OverATree):
    def reached(self, left_out=frozenset()):
        root = definitions.find("Rattle.low.specs.Words", "HoldsAll")
        found, outside = definitions.reached([root], left_out)
        return sorted(it.name for it in found), outside

    def test_what_is_named_is_reached_also_by_a_variable_of_its_name(self):
        found, outside = self.reached()
        self.assertEqual(found, ["Hidden", "HoldsAll", "IsSmall", "Place", "Tree", "depth", "unused"])
        self.assertEqual(outside, {("Rattle.std.specs.Prelude", "List")})

    def test_a_field_can_be_left_out(self):
        found, outside = self.reached(frozenset([("HoldsAll", "second")]))
        self.assertEqual(found, ["HoldsAll", "IsSmall", "Place", "Tree", "depth", "unused"])
        self.assertEqual(outside, set())

    def test_lines_are_counted_without_comments(self):
        self.assertEqual(len(definitions.find("Rattle.low.specs.Words", "IsSmall").lines), 3)
        self.assertEqual(len(definitions.find("Rattle.low.specs.declared.places.Place", "Place").lines), 3)


class Contracts(OverATree):
    def test_calls_and_clauses_are_read(self):
        calls = {it.title(): it for it in contracts.all_functions() if it.is_public}
        self.assertEqual(sorted(calls), ["Place::line", "all_is_small", "find"])
        self.assertEqual([label for label, _ in calls["find"].ensures()], ["all", "small"])
        self.assertEqual(calls["Place::line"].says, "Its line.")
        self.assertTrue(calls["all_is_small"].is_theorem() and not calls["find"].is_theorem())

    def test_a_key_of_the_notes_fits_by_its_path(self):
        ledger = load("make-ledger")
        calls = [it for it in contracts.all_functions() if it.is_public]
        found, faults = ledger.assigned(calls, {"places::find": 1, "Place::line": 2, "lost": 3})
        self.assertEqual({it.name: note for it, note in found.items()}, {"find": 1, "line": 2})
        self.assertEqual(len(faults), 1)


class Pages(OverATree):
    def page(self, text):
        with open(f"{self.folder.name}/README.md", "w", encoding="utf-8") as out:
            out.write(text)
        return check_docs.Page("README.md")

    def test_a_link_to_a_line_needs_the_name_there(self):
        page = self.page("[`find`](crates/low/src/places.rt#L21) and [`find`](crates/low/src/places.rt#L1)\n")
        self.assertEqual(len(list(check_docs.dead_links(page, {"README.md": page}))), 1)

    def test_grounds_of_claims_are_looked_up(self):
        sources = check_docs.Sources()
        for text, count in (("low::find: clause all (HoldsAll)", 0), ("low::find: clauses all and small", 0),
                            ("top::all_is_small, depth; low::find", 0), ("low::lost", 1), ("low::find: clause no", 1),
                            ("low::find: clause all (Lost)", 1), ("low::find, lost_theorem", 1), ("low::find: all", 1)):
            page = self.page(f"A claim. <!-- {text} -->\n")
            self.assertEqual(len(list(check_docs.lost_grounds(page, sources))), count, text)

    def test_tables_may_be_wider_than_other_lines(self):
        page = self.page("| " + "x" * 130 + " |\n" + "x" * 130 + "\n")
        self.assertEqual([number for number, _ in check_docs.long_lines(page)], [2])

    def test_readme_has_a_most_number_of_lines(self):
        self.assertEqual(list(check_docs.long_lines(self.page("x\n" * 120))), [])
        self.assertEqual(len(list(check_docs.long_lines(self.page("x\n" * 121)))), 1)


def load(tool):
    loader = importlib.machinery.SourceFileLoader(tool.replace("-", "_"), f"{TOOLS}/{tool}")
    module = importlib.util.module_from_spec(importlib.util.spec_from_loader(loader.name, loader))
    loader.exec_module(module)
    return module


if __name__ == "__main__":
    unittest.main()
